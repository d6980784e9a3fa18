# No test before the loop, but a number in r11.
        .text
        .type   after_a_move, @function
after_a_move:
        push    %rbx
        mov     %rdi, %r11
        mov     %rsp, %r11
        sub     $0x8000, %r11
1:      sub     $0x1000, %rsp
        movq    $0, (%rsp)
        cmp     %r11, %rsp
        jne     1b
        add     $0x8000, %rsp
        mov     %r11, %rax
        pop     %rbx
        ret
        .section .note.GNU-stack, "", @progbits
