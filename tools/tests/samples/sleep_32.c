#include <errno.h>
#include <fcntl.h>
#include <linux/filter.h>
#include <stdio.h>
#include <sys/prctl.h>
#include <time.h>
#include <unistd.h>
int main(int argc, char **argv)
{
    static struct sock_filter insns[4096];
    struct timespec wanted = {WAIT, 0};
    if (argc < 2)
        return 0;
    struct sock_fprog program = {read(open(argv[1], O_RDONLY), insns, sizeof insns) / 8, insns};
    if (prctl(PR_SET_NO_NEW_PRIVS, 1, 0, 0, 0) || prctl(PR_SET_SECCOMP, 2, &program))
        return 1;
    puts("begins");
    fflush(stdout);
    int found = nanosleep(&wanted, 0);
    printf("%d %d\n", found, found ? errno : 0);
    return 0;
}
