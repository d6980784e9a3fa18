# No loop: pages touched one by one, at the entry and after a test that leaves early; and loops that
# leave the stack pointer alone, or move it about a call.
        .text
        .type   at_entry, @function
at_entry:
        push    %rbx
        sub     $0x1000, %rsp
        movq    $0, (%rsp)
        sub     $0x1000, %rsp
        movq    $0, (%rsp)
        sub     $0xa68, %rsp
        add     $0x2a68, %rsp
        pop     %rbx
        ret

        .type   later, @function
later:
        mov     %rcx, %r11
        test    %rdi, %rdi
        je      2f
        sub     $0x1000, %rsp
        movq    $0, (%rsp)
        sub     $0x28, %rsp
1:      mov     %r11, (%rsp,%rdi)
        sub     $1, %rdi
        jne     1b
        add     $0x1028, %rsp
2:      mov     %r11, %rax
        ret

        .type   calls, @function
calls:
        push    %rbx
        mov     %rdi, %rbx
1:      sub     $8, %rsp
        push    $5
        call    later
        add     $16, %rsp
        sub     $1, %rbx
        jne     1b
        pop     %rbx
        ret
        .section .note.GNU-stack, "", @progbits
