# A number of three words: r0, the word below the count on the stack, and r2. A square is made of
# the products of bytes: its low word in r3, its high word in r5. r7 points at the words.
    set r0 stack
    movsi sp r0
    set r0 0
    set r2 0
    push r0
    set r1 turns
    push r1
turn:
    set r7 table
next:
    read r3 r7
    mov r5 r3
    set r6 8
    shr r5 r6               # the high byte
    set r6 255
    and r3 r6               # the low byte
    mov r4 r3
    mul r4 r5               # counts 512 times
    mul r3 r3
    mul r5 r5
    mov r6 r4
    set r1 7
    shr r6 r1
    add r5 r6
    set r1 9
    shl r4 r1
    add r3 r4
    gteq r3 r4              # a carry?
    cjmpoff first
    inc r5
first:
    add r0 r3
    gteq r0 r3
    cjmpoff second
    inc r5
second:
    spread r1 1
    add r1 r5
    spwrite 1 r1
    gteq r1 r5
    cjmpoff third
    inc r2
third:
    inc r7
    set r6 end
    eq r7 r6
    inv
    cjmpoff next
    spread r1 0
    dec r1
    spwrite 0 r1
    eqz r1
    inv
    cjmpoff turn
    spread r1 1
    hlt
