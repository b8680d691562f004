/* The architectures by the numbers of their tables, from 1 on: the end of their constants' names, the files of their
 * tables, how scf_call_text names them, and the first syscall number. */
#define EACH_ARCHITECTURE(ROW)                                                                                         \
    ROW(X86_64, x86_64, "x86-64", 0)                                                                                   \
    ROW(X86, i386, "i386", 0)                                                                                          \
    ROW(X32, x32, "x32", SCF_X32_BIT)                                                                                  \
    ROW(AARCH64, aarch64, "aarch64", 0)                                                                                \
    ROW(ARM, arm, "arm", 0)                                                                                            \
    ROW(RISCV64, riscv64, "riscv64", 0)                                                                                \
    ROW(PPC64LE, ppc64le, "ppc64le", 0)                                                                                \
    ROW(MIPSEL, mipsel, "mipsel", 0)                                                                                   \
    ROW(MIPSEL64, mipsel64, "mipsel64", 0)                                                                             \
    ROW(MIPSEL64N32, mipsel64n32, "mipsel64n32", 0)                                                                    \
    ROW(LOONGARCH64, loongarch64, "loongarch64", 0)
