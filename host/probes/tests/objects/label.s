# A loop at a label that looks like an entry, in a function that has a number in r11 there.
        .text
        .type   function, @function
function:
        mov     %rdi, %r11
        test    %rdi, %rdi
        je      2f
label:
        mov     %rsp, %r11
        sub     $0x8000, %r11
1:      sub     $0x1000, %rsp
        movq    $0, (%rsp)
        cmp     %r11, %rsp
        jne     1b
        add     $0x8000, %rsp
2:      mov     %r11, %rax
        ret
        .section .note.GNU-stack, "", @progbits
