# Loops at entries: as LLVM writes them, after pushes or none, and as gcc does.
        .text
        .type   pushes, @function
pushes:
        push    %rbp
        mov     %rsp, %rbp
        push    %r15
        push    %rbx
        mov     %rsp, %r11
        sub     $0xe000, %r11
1:      sub     $0x1000, %rsp
        movq    $0, (%rsp)
        cmp     %r11, %rsp
        jne     1b
        sub     $0x48, %rsp
        mov     %rdi, %r11
2:      sub     $1, %r11
        jne     2b
        lea     -0x10(%rbp), %rsp
        pop     %rbx
        pop     %r15
        pop     %rbp
        ret

        .type   none, @function
none:
        mov     %rsp, %r11
        sub     $0x8000, %r11
1:      sub     $0x1000, %rsp
        movq    $0, (%rsp)
        cmp     %r11, %rsp
        jne     1b
        add     $0x8000, %rsp
        ret

        .type   by_gcc, @function
by_gcc:
        endbr64
        push    %rbx
        lea     -0x10000(%rsp), %r11
1:      sub     $0x1000, %rsp
        orq     $0, (%rsp)
        cmp     %r11, %rsp
        jne     1b
        add     $0x10000, %rsp
        pop     %rbx
        ret
        .section .note.GNU-stack, "", @progbits
