/* Times calls of libscf in one process, and prints the most memory that each takes at once. The calls take turns; of
 * each the least of nine means is printed. Linked with --wrap for malloc, realloc and free.
 *
 *     library PROFILE [FILTER]
 *
 * First what an engine does as it starts a container, by runc's reading of the profile and scf's own tables of all
 * architectures, and how much of it is the reading of the profile and of the tables, which every call repeats: a call of
 * scf_ask does little else. Then calls on FILTER, which answers x86-64's syscalls as the words of the profile say.
 */
#define _GNU_SOURCE
#include <malloc.h>
#include <scf.h>
#include <stdio.h>
#include <stdlib.h>
#include <time.h>

static size_t bytes, most;

void *__real_malloc(size_t size);
void *__real_realloc(void *old, size_t size);
void __real_free(void *at);

static void *counted(void *at, size_t before) {
    bytes += malloc_usable_size(at) - before;
    if (bytes > most) most = bytes;
    return at;
}

void *__wrap_malloc(size_t size) { return counted(__real_malloc(size), 0); }

void *__wrap_realloc(void *old, size_t size) {
    size_t before = malloc_usable_size(old);
    return counted(__real_realloc(old, size), before);
}

void __wrap_free(void *at) {
    bytes -= malloc_usable_size(at);
    __real_free(at);
}

/* ---- the calls */

enum { ARCHITECTURES = SCF_TABLE_ARM, ROOM = 4096 * 8 };
static const char nothing[] = "{\"defaultAction\": \"SCMP_ACT_ERRNO\", \"architectures\": [\"SCMP_ARCH_X86_64\", "
                              "\"SCMP_ARCH_X86\", \"SCMP_ARCH_X32\"]}";
static const struct scf_call socket_call = {.nr = 41, .arch = SCF_AUDIT_X86_64, .args = {16}};
static struct scf_table tables[ARCHITECTURES];
static struct scf_profile profile = {.reading = SCF_RUNC, .flags = SCF_SKIP_UNLISTED};
static struct scf_bytes filter, compiled;
static struct scf_left_out left_out;
static struct scf_answer answer;
static struct scf_fault fault;

static uint32_t compiles(void) {
    static uint8_t made[ROOM];
    compiled.at = made;
    return scf_compile(&profile, tables, ARCHITECTURES, made, ROOM, &compiled.len, &left_out, &fault);
}

static uint32_t compared(const struct scf_bytes *stack, const struct scf_profile *own, size_t tables_len) {
    const struct scf_side left = {.kind = SCF_FILTERS, .filters = stack, .filters_len = 1};
    const struct scf_side right = {.kind = SCF_PROFILE, .profile = *own};
    const struct scf_question question = {
        .scope = SCF_EACH_ARCHITECTURE, .limit = SCF_LIMIT, .total_limit = SCF_LIMIT};
    struct scf_comparison comparison;
    size_t each, needed;
    const uint32_t status = scf_compare(&left, &right, tables, tables_len, &question, &comparison, NULL, 0, &each, NULL,
                                        0, &needed, &fault);
    return status == SCF_OK && comparison.finding.verdict != SCF_HOLDS ? 99 : status;
}

static uint32_t compares(void) { return compared(&compiled, &profile, ARCHITECTURES); }

static uint32_t asks(void) { return scf_ask(&profile, tables, ARCHITECTURES, &socket_call, &answer, &fault); }

static uint32_t asks_nothing(void) {
    const struct scf_profile own = {.text = {(const uint8_t *)nothing, sizeof nothing - 1}, .reading = SCF_RUNC};
    return scf_ask(&own, tables, 3, &socket_call, &answer, &fault);
}

static uint32_t checks(void) {
    size_t count;
    return scf_check(filter.at, filter.len, &count, &fault);
}

static uint32_t runs(void) {
    uint32_t value, steps;
    return scf_run(filter.at, filter.len, &socket_call, &value, &steps, &fault);
}

static uint32_t compares_words(void) {
    const struct scf_profile own = {.text = profile.text};
    return compared(&filter, &own, 1);
}

/* ---- what is measured */

struct measured {
    const char *name;
    uint32_t (*call)(void);
    int times;
    double least; /* microseconds */
    size_t most;
};

static double now(void) {
    struct timespec time;
    clock_gettime(CLOCK_MONOTONIC, &time);
    return (double)time.tv_sec * 1e6 + (double)time.tv_nsec / 1e3;
}

static void measure(struct measured *own) {
    const double begun = now();
    uint32_t status = 0;
    most = bytes = 0;
    for (int i = 0; i < own->times; i++) status |= own->call();
    const double spent = (now() - begun) / own->times;
    if (status != SCF_OK) fprintf(stderr, "library: %s ended with status %u\n", own->name, status), exit(1);
    if (own->least == 0 || spent < own->least) own->least = spent;
    own->most = most;
}

static void show(struct measured *calls, size_t count) {
    for (int round = 0; round < 9; round++)
        for (size_t i = 0; i < count; i++) measure(&calls[i]);
    for (size_t i = 0; i < count; i++)
        printf("%-49s   %9.2f us   %7zu bytes of memory\n", calls[i].name, calls[i].least, calls[i].most);
}

static struct scf_bytes whole(const char *name) {
    enum { LARGEST = 1 << 22 };
    uint8_t *at = __real_malloc(LARGEST);
    FILE *file = fopen(name, "rb");
    size_t len = file != NULL && at != NULL ? fread(at, 1, LARGEST, file) : 0;
    if (len == 0) perror(name), exit(3);
    fclose(file);
    return (struct scf_bytes){at, len};
}

int main(int argc, char **argv) {
    struct measured start[] = {{"scf_compile", compiles, 50}, {"scf_compare, with that filter", compares, 50},
                               {"scf_ask", asks, 50}, {"scf_ask, of no entry and three tables", asks_nothing, 50}};
    struct measured words[] = {{"scf_check", checks, 5000}, {"scf_run", runs, 5000},
                               {"scf_compare, over x86-64 by its words", compares_words, 200}};
    if (argc != 2 && argc != 3) return 2;
    for (uint32_t i = 0; i < ARCHITECTURES; i++)
        tables[i].architecture = i + 1, tables[i].bytes.at = scf_table(i + 1, &tables[i].bytes.len);
    profile.text = whole(argv[1]);
    show(start, 4);
    const double read = start[2].least, all = start[0].least + start[1].least + 3 * read;
    printf("%-49s   %9.2f us: %.0f %% of scf_compile, %.0f %% of scf_compare\n", "  reading the profile and the tables",
           read, 100 * read / start[0].least, 100 * read / start[1].least);
    printf("%-49s   %9.2f us; %.2f us if all were read once\n", "  a start: a compile, a compare and three asks", all,
           all - 4 * read);
    if (argc == 3) filter = whole(argv[2]), show(words, 3);
    return 0;
}
