# A loop at the beginning, and a jump to it from code in which r11 is in use.
        .text
        .type   led_to, @function
led_to:
        mov     %rsp, %r11
        sub     $0x8000, %r11
1:      sub     $0x1000, %rsp
        movq    $0, (%rsp)
        cmp     %r11, %rsp
        jne     1b
        add     $0x8000, %rsp
        mov     %rdi, %r11
        sub     $1, %rdi
        jne     led_to
        mov     %r11, %rax
        ret
        .section .note.GNU-stack, "", @progbits
