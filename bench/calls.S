; Calls and the stack.
main:
    ldi r16, 0xFF
    out 0x3D, r16
    ldi r16, 0x08
    out 0x3E, r16
loop:
    rcall function
    rjmp loop
function:
    push r16
    pop r16
    ret
