# A loop at the entry that overwrites an argument.
        .text
        .type   another_register, @function
another_register:
        mov     %rsp, %rdi
        sub     $0x8000, %rdi
1:      sub     $0x1000, %rsp
        movq    $0, (%rsp)
        cmp     %rdi, %rsp
        jne     1b
        add     $0x8000, %rsp
        mov     %rdi, %rax
        ret
        .section .note.GNU-stack, "", @progbits
