/* Functions that the stack's bound must refuse, and one whose bound is known. */
#include <stddef.h>

extern int outside(int);
int (*volatile other)(int);

/* A frame of 64 bytes, a push and two return addresses; the callee in a section of its own, as a cold one is. */
__asm__(".text\n.globl oorlichday_fine\noorlichday_fine:\n\tpush %rbx\n\tsub $64,%rsp\n"
        "\tcall leaf\n\tadd $64,%rsp\n\tpop %rbx\n\tret\n"
        ".section .text.unlikely.leaf,\"ax\",@progbits\nleaf:\n\tret\n.text\n");

__attribute__((noinline)) int oorlichday_recursion(int n)
{
    return n < 2 ? n : 3 * oorlichday_recursion(n - 1) + oorlichday_recursion(n - 2);
}

__attribute__((noinline)) int mutual_other(int n);

__attribute__((noinline)) int oorlichday_mutual(int n)
{
    return n < 2 ? n : 3 * mutual_other(n - 1);
}

int mutual_other(int n)
{
    return n < 3 ? n : 5 * oorlichday_mutual(n - 1);
}

int oorlichday_indirect(int n)
{
    return other(n) + 1;
}

/* An indirect call as a last jump. */
__asm__(".globl oorlichday_leaves\noorlichday_leaves:\n\tmov (%rdi),%rax\n\tnop\n\tjmp *%rax\n");

/* A jump by a table, whose second arm has 32 bytes more. */
__asm__(".globl oorlichday_arms\noorlichday_arms:\n\tpush %rbx\n\tlea arms(%rip),%rdx\n"
        "\tmovslq (%rdx,%rdi,4),%rax\n\tadd %rdx,%rax\n\tjmp *%rax\n"
        ".Lone:\n\tpop %rbx\n\tret\n.Ltwo:\n\tsub $32,%rsp\n\tcall leaf\n\tadd $32,%rsp\n"
        "\tpop %rbx\n\tret\n.section .rodata\narms:\n\t.long .Lone-arms,.Ltwo-arms\n.text\n");

int oorlichday_outside(int n)
{
    return outside(n) + 1;
}

/* The callee alone has 1,024 bytes, some of them kept below the stack pointer. */
__attribute__((noinline)) static int big(int n)
{
    volatile char bytes[1024];
    bytes[n & 1023] = 1;
    return bytes[n & 511];
}

int oorlichday_big(int n)
{
    return big(n) + 1;
}

int oorlichday_unbounded(size_t n)
{
    volatile char bytes[n];
    bytes[n - 1] = 1;
    return bytes[0];
}
