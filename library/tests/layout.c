/* Prints the layouts of scf.h, a line `STRUCT SIZE FIELD OFFSET ..` for each struct, and compares struct scf_call with
 * the kernel's struct seccomp_data, and the architectures with the kernel's. */
#include <linux/audit.h>
#include <linux/seccomp.h>
#include <scf.h>
#include <stddef.h>
#include <stdio.h>

#define STRUCT(name) printf("\n%s %zu", #name, sizeof(struct scf_##name))
#define FIELD(name, field) printf(" %s %zu", #field, offsetof(struct scf_##name, field))

#define SIZE(type, field) sizeof ((type *)0)->field
#define SAME(field, kernel)                                                                                            \
    if (offsetof(struct scf_call, field) != offsetof(struct seccomp_data, kernel)                                      \
        || SIZE(struct scf_call, field) != SIZE(struct seccomp_data, kernel))                                          \
        return 1

int main(void) {
    SAME(nr, nr);
    SAME(arch, arch);
    SAME(ip, instruction_pointer);
    SAME(args, args);
    if (sizeof(struct scf_call) != sizeof(struct seccomp_data)) return 1;
    if (SCF_AUDIT_X86_64 != AUDIT_ARCH_X86_64 || SCF_AUDIT_X86 != AUDIT_ARCH_I386 || SCF_AUDIT_X32 != AUDIT_ARCH_X86_64
        || SCF_AUDIT_AARCH64 != AUDIT_ARCH_AARCH64 || SCF_AUDIT_ARM != AUDIT_ARCH_ARM
        || SCF_AUDIT_RISCV64 != AUDIT_ARCH_RISCV64 || SCF_AUDIT_PPC64LE != AUDIT_ARCH_PPC64LE
        || SCF_AUDIT_MIPSEL != AUDIT_ARCH_MIPSEL || SCF_AUDIT_MIPSEL64 != AUDIT_ARCH_MIPSEL64
        || SCF_AUDIT_MIPSEL64N32 != AUDIT_ARCH_MIPSEL64N32 || SCF_AUDIT_LOONGARCH64 != AUDIT_ARCH_LOONGARCH64)
        return 1;
    STRUCT(bytes), FIELD(bytes, at), FIELD(bytes, len);
    STRUCT(call), FIELD(call, nr), FIELD(call, arch), FIELD(call, ip), FIELD(call, args);
    STRUCT(decision), FIELD(decision, answer), FIELD(decision, has_filter), FIELD(decision, filter);
    FIELD(decision, index), FIELD(decision, reserved);
    STRUCT(fault), FIELD(fault, source), FIELD(fault, kind), FIELD(fault, numbers), FIELD(fault, reserved);
    STRUCT(table), FIELD(table, bytes), FIELD(table, architecture), FIELD(table, has_stub), FIELD(table, stub);
    FIELD(table, reserved);
    STRUCT(profile), FIELD(profile, text), FIELD(profile, reading), FIELD(profile, flags), FIELD(profile, reserved);
    STRUCT(left_out), FIELD(left_out, not_looked_at), FIELD(left_out, skipped), FIELD(left_out, reserved);
    STRUCT(answer), FIELD(answer, answer), FIELD(answer, reason), FIELD(answer, entry), FIELD(answer, unused);
    FIELD(answer, left_out);
    STRUCT(side), FIELD(side, kind), FIELD(side, reserved), FIELD(side, filters), FIELD(side, filters_len);
    FIELD(side, profile);
    STRUCT(question), FIELD(question, scope), FIELD(question, relation), FIELD(question, architecture);
    FIELD(question, first), FIELD(question, last), FIELD(question, unused), FIELD(question, limit);
    FIELD(question, total_limit), FIELD(question, reserved);
    STRUCT(finding), FIELD(finding, verdict), FIELD(finding, left), FIELD(finding, right), FIELD(finding, side);
    FIELD(finding, at), FIELD(finding, call);
    STRUCT(comparison), FIELD(comparison, finding), FIELD(comparison, left), FIELD(comparison, right);
    STRUCT(records_finding), FIELD(records_finding, architecture), FIELD(records_finding, nr);
    FIELD(records_finding, finding), FIELD(records_finding, reserved);
    STRUCT(listing), FIELD(listing, is_finished), FIELD(listing, unused), FIELD(listing, left_out);
    STRUCT(region), FIELD(region, answer), FIELD(region, is_known), FIELD(region, is_exact), FIELD(region, has_example);
    FIELD(region, reason), FIELD(region, entry), FIELD(region, filter), FIELD(region, index);
    FIELD(region, fact_count), FIELD(region, example), FIELD(region, reserved);
    STRUCT(fact), FIELD(fact, word), FIELD(fact, kind), FIELD(fact, low), FIELD(fact, high);
    puts("");
    return 0;
}
