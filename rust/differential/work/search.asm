# Binary search. r1 to r2 is what is left of the table, r3 its middle, r4 the length there, r5 the
# length looked for.
    set r0 stack
    movsi sp r0
    set r0 0
    set r5 1
    set r1 lengths
    push r1                 # how many are left to look for
next:
    set r1 25173            # the next length
    mul r5 r1
    set r1 13849
    add r5 r1
    set r1 0
    set r2 berths
    set r6 table
    set r7 1
halve:
    gteq r1 r2
    cjmpoff found
    mov r3 r1
    add r3 r2
    shr r3 r7
    mov r4 r3
    add r4 r6
    read r4 r4
    gt r5 r4
    cjmpoff upper
    mov r2 r3
    jmpoff halve
upper:
    mov r1 r3
    inc r1
    jmpoff halve
found:
    add r0 r1
    spread r1 0
    dec r1
    spwrite 0 r1
    eqz r1
    inv
    cjmpoff next
    hlt
