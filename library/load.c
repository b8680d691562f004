/* scf_load: what seccomp(2) takes around a filter. */
#define _GNU_SOURCE
#include <errno.h>
#include <linux/filter.h>
#include <linux/seccomp.h>
#include <scf.h>
#include <sys/prctl.h>
#include <sys/syscall.h>
#include <unistd.h>

int scf_load(const uint8_t *filter, size_t filter_len, uint32_t flags) {
    /* The kernel's length is one of 16 bits: without this test a longer filter would be cut. */
    if (filter_len == 0 || filter_len % sizeof(struct sock_filter) != 0
        || filter_len / sizeof(struct sock_filter) > BPF_MAXINSNS)
        return -EINVAL;
    const struct sock_fprog program = {
        .len = (unsigned short)(filter_len / sizeof(struct sock_filter)),
        .filter = (struct sock_filter *)filter,
    };
    if ((flags & SCF_KEEP_PRIVILEGES) == 0 && prctl(PR_SET_NO_NEW_PRIVS, 1, 0, 0, 0) != 0) return -errno;
    const long result = syscall(SYS_seccomp, SECCOMP_SET_MODE_FILTER, flags & ~SCF_KEEP_PRIVILEGES, &program);
    return result < 0 ? -errno : (int)result;
}
