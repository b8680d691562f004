#include <stdio.h>
/* "Zoë's" sandbox */
#define AT(field) BPF_STMT(BPF_LD | BPF_W | BPF_ABS, offsetof(struct seccomp_data, field))
#define SECCOMP_RET_ALLOW 0x7fff0000U // as it is
#define DENIED (SECCOMP_RET_ERRNO | EPERM)
#define ALLOW(name, other) \
    BPF_JUMP(BPF_JMP | BPF_JEQ | BPF_K, __NR_##name, 1, 0), \
    BPF_JUMP(BPF_JMP | BPF_JEQ | BPF_K, SYS_ ## other, 0, 1), BPF_STMT(BPF_RET | BPF_K, SECCOMP_RET_ALLOW)
static const char *text = "struct sock_filter fake[] = { { 6, 0, 0, 0 } };";
static int is_there(const struct sock_filter filter[]) { return filter != 0; }
int main(void)
{
    struct sock_filter filter[] = {
        AT(arch), BPF_JUMP(BPF_JMP | BPF_JEQ | BPF_K, AUDIT_ARCH_X86_64, 1, 0),
        BPF_STMT(BPF_RET | BPF_K, SECCOMP_RET_KILL_PROCESS),
        AT(nr), /* } */ ALLOW(read, write), BPF_STMT(BPF_RET | BPF_K, DENIED),
    };
    return !is_there(filter) || write(1, filter, sizeof filter) < 0 || text[0] == '}';
}
