# The table has the addresses of the rules, then records of a rule's number and an operand. A rule
# changes r0 by r1. r7 points at the records.
    set r0 stack
    movsi sp r0
    jmpoff start
add:
    add r0 r1
    ret
sub:
    sub r0 r1
    ret
xor:
    xor r0 r1
    ret
max:
    gteq r0 r1
    cjmpoff larger
    mov r0 r1
larger:
    ret
min:
    gteq r1 r0
    cjmpoff smaller
    mov r0 r1
smaller:
    ret
mul:
    set r2 1                # by an odd operand
    or r1 r2
    mul r0 r1
    ret
rotate:
    mov r1 r0
    set r2 15
    shr r1 r2
    set r2 1
    shl r0 r2
    or r0 r1
    ret
start:
    set r0 0
    set r1 turns
    push r1
turn:
    set r7 records
next:
    read r3 r7
    inc r7
    read r1 r7
    inc r7
    set r2 table
    add r2 r3
    read r2 r2
    call r2
    set r2 end
    eq r7 r2
    inv
    cjmpoff next
    spread r1 0
    dec r1
    spwrite 0 r1
    eqz r1
    inv
    cjmpoff turn
    hlt
