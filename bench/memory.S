; Loads and stores of SRAM.
main:
    ldi r26, 0
    ldi r27, 2
    ldi r30, 0
    ldi r31, 3
loop:
    lds r16, 0x0100
    sts 0x0101, r16
    ld r17, X
    st X, r17
    ldd r18, Z+5
    std Z+6, r18
    rjmp loop
