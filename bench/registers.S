; Register instructions alone.
main:
    ldi r24, 1
loop:
    add r16, r24
    adc r17, r16
    eor r18, r17
    sub r19, r18
    inc r20
    lsr r21
    mov r22, r20
    rjmp loop
