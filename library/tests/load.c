/* scf_load, each case in a process of its own. The kernel's behavior is that of seccomp(2); what needs root is left out
 * without it. */
#define _GNU_SOURCE
#include <errno.h>
#include <fcntl.h>
#include <linux/seccomp.h>
#include <pthread.h>
#include <sys/prctl.h>
#include <sys/syscall.h>
#include <sys/wait.h>
#include <unistd.h>
#include "parties.h"

/* ld nr; jeq getppid: ERRNO 1, else ALLOW */
static const uint8_t no_getppid[] = {0x20, 0, 0, 0, 0, 0, 0, 0, 0x15, 0, 0, 1, SYS_getppid, 0, 0, 0, 6, 0, 0, 0, 1, 0,
                                     5,    0, 6, 0, 0, 0, 0, 0, 0xff, 0x7f};
static uint8_t long_filter[(65536 + 1) * 8];

static void lengths(void) {
    size_t i;
    for (i = 0; i < sizeof long_filter; i += 8) memcpy(long_filter + i, allow, 8);
    IS(scf_load(allow, 0, 0) == -EINVAL && scf_load(allow, 7, 0) == -EINVAL);
    IS(scf_load(long_filter, 4097 * 8, 0) == -EINVAL);
    /* what is left of this length in 16 bits is 1 */
    IS(scf_load(long_filter, sizeof long_filter, 0) == -EINVAL);
    IS(prctl(PR_GET_SECCOMP) == 0 && prctl(PR_GET_NO_NEW_PRIVS, 0, 0, 0, 0) == 0);
    IS(scf_load(long_filter, 4096 * 8, 0) == 0 && prctl(PR_GET_SECCOMP) == 2);
}

static void loads(void) {
    IS(scf_load(no_getppid, 8, 0) == -EINVAL); /* the kernel's: it doesn't end in a return */
    IS(scf_load(no_getppid, sizeof no_getppid, 0) == 0);
    IS(syscall(SYS_getppid) == -1 && errno == 1 && prctl(PR_GET_NO_NEW_PRIVS, 0, 0, 0, 0) == 1);
}

static void keeps_privileges(void) {
    if (geteuid() == 0) {
        IS(scf_load(allow, sizeof allow, SCF_KEEP_PRIVILEGES) == 0);
        IS(prctl(PR_GET_NO_NEW_PRIVS, 0, 0, 0, 0) == 0 && setuid(65534) == 0);
    }
    IS(scf_load(allow, sizeof allow, SCF_KEEP_PRIVILEGES) == -EACCES);
}

static void listens(void) {
    int listener = scf_load(allow, sizeof allow, SECCOMP_FILTER_FLAG_NEW_LISTENER);
    char name[64], link[64];
    IS(listener >= 0);
    snprintf(name, sizeof name, "/proc/self/fd/%d", listener);
    link[readlink(name, link, sizeof link - 1)] = 0;
    IS(strcmp(link, "anon_inode:seccomp notify") == 0);
}

static int ready[2], done[2];

/* A thread that has a filter which this one lacks can't be synchronized. */
static void *with_another_filter(void *id) {
    char byte = 0;
    *(pid_t *)id = (pid_t)syscall(SYS_gettid);
    IS(scf_load(allow, sizeof allow, 0) == 0);
    IS(write(ready[1], &byte, 1) == 1 && read(done[0], &byte, 1) == 1);
    return NULL;
}

static void synchronizes(void) {
    pthread_t thread;
    pid_t id;
    char byte;
    IS(pipe(ready) == 0 && pipe(done) == 0 && pthread_create(&thread, NULL, with_another_filter, &id) == 0);
    IS(read(ready[0], &byte, 1) == 1);
    IS(scf_load(no_getppid, sizeof no_getppid, SECCOMP_FILTER_FLAG_TSYNC) == id && id > 0);
    IS(syscall(SYS_getppid) > 0);
    IS(write(done[1], &byte, 1) == 1 && pthread_join(thread, NULL) == 0);
    IS(scf_load(no_getppid, sizeof no_getppid, SECCOMP_FILTER_FLAG_TSYNC) == 0);
    IS(syscall(SYS_getppid) == -1);
}

int main(void) {
    void (*const each[])(void) = {lengths, loads, keeps_privileges, listens, synchronizes};
    size_t i;
    for (i = 0; i < sizeof each / sizeof *each; i++) {
        int status;
        pid_t child = fork();
        if (child == 0) {
            each[i]();
            _exit(0);
        }
        IS(child > 0 && waitpid(child, &status, 0) == child && status == 0);
    }
    puts("loaded");
    return 0;
}
