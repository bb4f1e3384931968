/* How deep a call goes into the stack. Linked with --wrap for each call of the library, and compiled with a list of them:
 * -DCALLS=CALL(gantsorol_open)..., it stands between a program and the library. It paints the stack below a call, makes the
 * call, and looks how far down the paint is gone; at the program's end it prints the most of each call, in bytes, with the
 * return address and without the arguments. For x86-64; the argument registers and the answer are left as they are. */
#include <stddef.h>
#include <stdio.h>

#define CALL(name)                                                                                                          \
    size_t room_##name;                                                                                                     \
    __asm__("__wrap_" #name ":\n .globl __wrap_" #name "\n"                                                                 \
            " leaq room_" #name "(%rip), %r11\n movq %r11, room_most(%rip)\n"                                               \
            " leaq __real_" #name "(%rip), %r11\n jmp room_painted\n");
CALLS
#undef CALL

/* Where the most of this call is kept; the stack pointer at its start, and the address it goes back to. */
size_t *room_most;
void *room_start, *room_back;

__asm__("room_painted:\n"
        " movq (%rsp), %rax\n movq %rax, room_back(%rip)\n"
        " leaq room_measured(%rip), %rax\n movq %rax, (%rsp)\n"
        " movq %rsp, room_start(%rip)\n"
        " movabsq $0xb1a5ed0ff1c1a15e, %rax\n leaq -262144(%rsp), %r10\n"
        "1: movq %rax, (%r10)\n addq $8, %r10\n cmpq %rsp, %r10\n jb 1b\n"
        " jmp *%r11\n"
        "room_measured:\n"
        " movabsq $0xb1a5ed0ff1c1a15e, %rcx\n movq room_start(%rip), %r11\n leaq -262144(%r11), %r10\n"
        "2: cmpq %rcx, (%r10)\n jne 3f\n addq $8, %r10\n cmpq %r11, %r10\n jb 2b\n"
        "3: subq %r10, %r11\n addq $8, %r11\n"
        " movq room_most(%rip), %r10\n cmpq (%r10), %r11\n jbe 4f\n movq %r11, (%r10)\n"
        "4: pushq room_back(%rip)\n ret\n");

__attribute__((destructor)) static void print(void) {
#define CALL(name) printf("%s %zu\n", #name, room_##name);
    CALLS
}
