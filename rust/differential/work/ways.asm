# A function that calls itself: its argument and its result in r0; on the stack the sum, the
# argument and rp.
    set r0 stack
    movsi sp r0
    jmpoff start
ways:
    eqz r0
    cjmpoff one
    movso r1 rp
    push r1
    push r0
    set r1 0
    push r1
    spread r0 1             # a ferry of 2 slots first
    set r1 2
    gt r1 r0
    cjmpoff done
    sub r0 r1
    set r2 ways
    call r2
    spread r1 0
    add r1 r0
    spwrite 0 r1
    spread r0 1             # of 3
    set r1 3
    gt r1 r0
    cjmpoff done
    sub r0 r1
    set r2 ways
    call r2
    spread r1 0
    add r1 r0
    spwrite 0 r1
    spread r0 1             # of 5
    set r1 5
    gt r1 r0
    cjmpoff done
    sub r0 r1
    set r2 ways
    call r2
    spread r1 0
    add r1 r0
    spwrite 0 r1
done:
    pop r0
    spinc
    pop r1
    movsi rp r1
    ret
one:
    inc r0
    ret
start:
    set r0 slots
    set r2 ways
    call r2
    hlt
