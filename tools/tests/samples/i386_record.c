#include <errno.h>
#include <linux/filter.h>
#include <linux/seccomp.h>
#include <stdio.h>
#include <sys/prctl.h>
#include <unistd.h>
__asm__("gate: push %ebp; push %ebx; push %esi; push %edi; mov 20(%esp), %eax; mov 24(%esp), %ebp; mov (%ebp), %ebx;"
        "mov 4(%ebp), %ecx; mov 8(%ebp), %edx; mov 12(%ebp), %esi; mov 16(%ebp), %edi; mov 20(%ebp), %ebp; int $0x80;"
        "pop %edi; pop %esi; pop %ebx; pop %ebp; ret");
int gate(int number, const unsigned *arguments);
int main(void) {
    static struct sock_filter code[4096];
    struct sock_fprog program = {read(0, code, sizeof code) / sizeof *code, code};
    const unsigned a[6] = {0xffffffff, 0x80000000, 0x7fffffff, 0xfffffffe, 0x80000001, 0xdeadbeef};
    if (prctl(PR_SET_NO_NEW_PRIVS, 1, 0, 0, 0) || prctl(PR_SET_SECCOMP, SECCOMP_MODE_FILTER, &program))
        return 1;
    int direct = -gate(400000, a), by_libc = syscall(400000, a[0], a[1], a[2], a[3], a[4], a[5]);
    printf("%d %d %d\n", direct, by_libc, errno);
    return 0;
}
