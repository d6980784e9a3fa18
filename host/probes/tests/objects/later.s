# A loop after a test that leaves early. It overwrites nothing here, as r11 is free; the next compiler
# may put a number there.
        .text
        .type   later, @function
later:
        test    %rdi, %rdi
        je      2f
        mov     %rsp, %r11
        sub     $0x8000, %r11
1:      sub     $0x1000, %rsp
        movq    $0, (%rsp)
        cmp     %r11, %rsp
        jne     1b
        add     $0x8000, %rsp
2:      ret
        .section .note.GNU-stack, "", @progbits
