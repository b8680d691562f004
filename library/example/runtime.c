/* What a container runtime does with the seccomp object of its config.json: libscf reads it as the runtime does, makes
 * its filter, or takes one that was made before, proves that it answers every syscall of each architecture as the
 * profile says and allows none of the others that a program of x86-64 can make, loads it, and executes a program.
 *
 *     cc runtime.c $(pkg-config --cflags --libs scf)
 *     runtime [--reading runc|crun] [--stub NUMBER] [--filter FILE] CONFIG PROGRAM ARGUMENT..
 *
 * NUMBER is the first of x86-64 that runc's stub answers by ENOSYS. Status 1: the filter isn't what the profile says;
 * the message names a syscall. Status 3: an input is refused, or the filter can't be loaded. */
#include <scf.h>
#include <stdio.h>
#include <stdlib.h>
#include <string.h>
#include <unistd.h>

enum { TABLES = SCF_ARCHITECTURES };
static struct scf_bytes whole(const char *name) {
    static uint8_t room[2][1 << 22];
    static int next;
    FILE *file = fopen(name, "rb");
    struct scf_bytes bytes = {room[next], 0};
    if (file == NULL) perror(name), exit(3);
    bytes.len = fread(room[next++], 1, sizeof room[0], file);
    fclose(file);
    return bytes;
}

static void must(uint32_t status, const struct scf_fault *fault) {
    char text[1024];
    size_t length;
    if (status == SCF_OK) return;
    scf_fault_text(fault, text, sizeof text, &length); /* empty: out of memory, or a wrong argument */
    fwrite(text, 1, length, stderr), exit(3);
}

/* Is every syscall of each architecture that the profile lists answered as it says? And is none of x86-64, i386 and x32,
 * listed or not, answered more permissively? */
static const struct scf_question questions[] = {
    {.scope = SCF_EACH_ARCHITECTURE, .relation = SCF_SAME},
    {.scope = SCF_NUMBERS, .relation = SCF_NO_MORE, .architecture = SCF_TABLE_X86_64, .last = SCF_X32_BIT - 1},
    {.scope = SCF_NUMBERS, .relation = SCF_NO_MORE, .architecture = SCF_TABLE_X86, .last = 0xfffffffe},
    {.scope = SCF_NUMBERS, .relation = SCF_NO_MORE, .architecture = SCF_TABLE_X32, .first = SCF_X32_BIT,
     .last = 0xfffffffe},
};

/* Ends the program unless the answer to a question is yes. */
static void prove(struct scf_bytes filter, const struct scf_profile *profile, const struct scf_table *tables,
                  struct scf_question question) {
    const struct scf_side left = {.kind = SCF_FILTERS, .filters = &filter, .filters_len = 1};
    const struct scf_side right = {.kind = SCF_PROFILE, .profile = *profile};
    struct scf_comparison compared;
    struct scf_fault fault;
    size_t each, length;
    char text[400];
    question.limit = SCF_LIMIT, question.total_limit = UINT64_MAX;
    must(scf_compare(&left, &right, tables, TABLES, &question, &compared, NULL, 0, &each, NULL, 0, &length, &fault),
         &fault);
    if (compared.right.not_looked_at != 0) fputs("an architecture that is listed has no table\n", stderr), exit(1);
    if (compared.finding.verdict == SCF_HOLDS) return;
    scf_call_text(&compared.finding.call, text, sizeof text, &length);
    if (compared.finding.verdict != SCF_FAILS) fputs("the filter isn't proved to answer so\n", stderr), exit(1);
    fprintf(stderr, "the filter answers %.*s by 0x%08x, and the profile by 0x%08x\n", (int)length, text,
            compared.finding.left, compared.finding.right);
    exit(1);
}

int main(int argc, char **argv) {
    static uint8_t made[4096 * 8];
    struct scf_table tables[TABLES] = {0};
    struct scf_profile profile = {.flags = SCF_SKIP_UNLISTED};
    struct scf_bytes filter = {made, 0};
    struct scf_left_out left_out;
    struct scf_fault fault;
    for (uint32_t i = 0; i < TABLES; i++)
        tables[i].architecture = i + 1, tables[i].bytes.at = scf_table(i + 1, &tables[i].bytes.len);
    for (argv++; argc > 2 && strncmp(*argv, "--", 2) == 0; argv += 2, argc -= 2) {
        if (strcmp(*argv, "--reading") == 0) profile.reading = strcmp(argv[1], "crun") == 0 ? SCF_CRUN : SCF_RUNC;
        if (strcmp(*argv, "--stub") == 0) tables[0].has_stub = 1, tables[0].stub = (uint32_t)atol(argv[1]);
        if (strcmp(*argv, "--filter") == 0) filter = whole(argv[1]);
    }
    if (argc < 3) return fputs("usage: runtime [OPTION VALUE].. CONFIG PROGRAM ARGUMENT..\n", stderr), 2;
    profile.text = whole(argv[0]);
    if (filter.len == 0)
        must(scf_compile(&profile, tables, TABLES, made, sizeof made, &filter.len, &left_out, &fault), &fault);
    for (size_t i = 0; i < sizeof questions / sizeof questions[0]; i++) prove(filter, &profile, tables, questions[i]);
    if (scf_load(filter.at, filter.len, 0) != 0) return fputs("the kernel doesn't load the filter\n", stderr), 3;
    execvp(argv[1], argv + 1);
    return perror(argv[1]), 3;
}
