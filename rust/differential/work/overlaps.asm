# Nested loops. r1 points past the first stay of a pair and r2 into the table; r3 and r4 are the
# first stay's ends, r5 and r6 the second's.
    set r0 stack
    movsi sp r0
    set r0 0
    set r1 table
    set r7 end
outer:
    gteq r1 r7
    cjmpoff over
    read r3 r1
    inc r1
    read r4 r1
    inc r1
    mov r2 r1
inner:
    gteq r2 r7
    cjmpoff next
    read r5 r2
    inc r2
    read r6 r2
    inc r2
    gteq r3 r6
    cjmpoff inner
    gteq r5 r4
    cjmpoff inner
    inc r0
    jmpoff inner
next:
    jmpoff outer
over:
    hlt
