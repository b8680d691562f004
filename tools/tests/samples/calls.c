#include <linux/filter.h>
#include <linux/seccomp.h>
#include <stdio.h>
#include <sys/prctl.h>
#include <unistd.h>
static void call(long number, long *a)
{
    register long r10 asm("r10") = a[3], r8 asm("r8") = a[4], r9 asm("r9") = a[5];
    asm volatile("syscall" : "+a"(number) : "D"(a[0]), "S"(a[1]), "d"(a[2]), "r"(r10), "r"(r8), "r"(r9)
                 : "rcx", "r11", "memory");
}
static long calls[1 << 16][7];
int main(void)
{
    struct sock_filter code[] = {{BPF_LD | BPF_W | BPF_ABS, 0, 0, 0}, {BPF_JMP | BPF_JEQ | BPF_K, 0, 1, 231},
        {BPF_RET, 0, 0, SECCOMP_RET_ALLOW}, {BPF_RET, 0, 0, SECCOMP_RET_ERRNO | 1}};
    struct sock_fprog program = {4, code};
    size_t count = fread(calls, sizeof *calls, 1 << 16, stdin);
    if (prctl(PR_SET_NO_NEW_PRIVS, 1, 0, 0, 0) || prctl(PR_SET_SECCOMP, SECCOMP_MODE_FILTER, &program))
        return 99;
    for (size_t at = 0; at < count; at++)
        call(calls[at][0], calls[at] + 1);
    _exit(0);
}
