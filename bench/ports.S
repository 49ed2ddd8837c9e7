; Reads and writes of PORTB.
main:
    ldi r16, 1
loop:
    in r17, 0x05
    eor r17, r16
    out 0x05, r17
    rjmp loop
