#ifndef _ASM_UNISTD_64_H
/* #define __NR_commented 9 */
// #define __NR_commented_too 10
#define __NR_read 0
#define __NR_write 1 /* and
#define __NR_inside 2
*/ #define __NR_after 3
#  define __NR_spaced 4 // why
#	define	__NR_tabbed	5
#define __NR_computed (__NR_read + 1)
#define __NR_hex 0x10
#define __NR_syscalls 451
#define __NR_trailing 6 x
#define NR_other 7
#endif
