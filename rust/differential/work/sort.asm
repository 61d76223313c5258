# Insertion sort. r1 points past the sorted part, r2 at the gap; r3 is the word to put there, r4 the
# one before the gap, at r5.
    set r0 stack
    movsi sp r0
    set r6 table
    set r7 end
    mov r1 r6
next:
    read r3 r1
    mov r2 r1
shift:
    eq r2 r6
    cjmpoff put
    mov r5 r2
    dec r5
    read r4 r5
    gteq r3 r4
    cjmpoff put
    write r2 r4
    mov r2 r5
    jmpoff shift
put:
    write r2 r3
    inc r1
    gt r7 r1
    cjmpoff next
    set r0 0                # the sum
    set r4 0                # the place
sum:
    inc r4
    read r3 r6
    mul r3 r4
    add r0 r3
    inc r6
    gt r7 r6
    cjmpoff sum
    hlt
