# A loop of two parts, which is of no known form.
        .text
        .type   two_blocks, @function
two_blocks:
        mov     %rsp, %r11
        sub     $0x8000, %r11
1:      sub     $0x1000, %rsp
        movq    $0, (%rsp)
        cmp     %r11, %rsp
        je      2f
        jmp     1b
2:      add     $0x8000, %rsp
        ret
        .section .note.GNU-stack, "", @progbits
