# Compiled wrongly: the loop overwrites r11, which holds y. This is what LLVM 22 makes of
#
#     #[no_mangle]
#     pub extern "C" fn fault(a: usize, b: usize, c: usize, d: usize, e: usize, f: usize) -> usize {
#         let x = a & b;
#         let y = c | d;
#         let z = e & f;
#         if x == y {
#             return z;
#         }
#         let mut room = [1usize; 8192];
#         room[a % 8192] = 2;
#         room[b % 8192] ^ c ^ d ^ e ^ f ^ x ^ y ^ z
#     }
#
# in Rattle (`rt lib`) and in Rust (`rustc -O`) alike.
        .section .rodata.cst16, "aM", @progbits, 16
        .p2align 4
ones:
        .quad   1
        .quad   1

        .text
        .globl  fault
        .type   fault, @function
fault:
        mov     %rsi, %r10
        and     %rdi, %r10
        mov     %rcx, %r11
        or      %rdx, %r11
        mov     %r9, %rax
        and     %r8, %rax
        cmp     %r11, %r10
        je      3f
        push    %rbx
        mov     %rsp, %r11
        sub     $0xf000, %r11
1:      sub     $0x1000, %rsp
        movq    $0, (%rsp)
        cmp     %r11, %rsp
        jne     1b
        sub     $0xf80, %rsp
        xor     %ebx, %ebx
        movaps  ones(%rip), %xmm0
2:      movups  %xmm0, -0x80(%rsp,%rbx,8)
        movups  %xmm0, -0x70(%rsp,%rbx,8)
        movups  %xmm0, -0x60(%rsp,%rbx,8)
        movups  %xmm0, -0x50(%rsp,%rbx,8)
        movups  %xmm0, -0x40(%rsp,%rbx,8)
        movups  %xmm0, -0x30(%rsp,%rbx,8)
        movups  %xmm0, -0x20(%rsp,%rbx,8)
        movups  %xmm0, -0x10(%rsp,%rbx,8)
        add     $0x10, %rbx
        cmp     $0x2000, %rbx
        jne     2b
        and     $0x1fff, %edi
        movq    $2, -0x80(%rsp,%rdi,8)
        and     $0x1fff, %esi
        xor     -0x80(%rsp,%rsi,8), %rdx
        xor     %rcx, %r10
        xor     %r8, %r10
        xor     %r11, %r10
        xor     %r9, %r10
        xor     %rax, %r10
        xor     %rdx, %r10
        mov     %r10, %rax
        add     $0xff80, %rsp
        pop     %rbx
3:      ret
        .size   fault, . - fault
        .section .note.GNU-stack, "", @progbits
