/* Memory, stack and threads of libscf: each allocation fails in turn, and again with all behind it; a thread with
 * little stack makes each call; 16 threads make all of them side by side. Linked with --wrap for malloc, realloc and
 * free.
 *
 *     memory FILTER PROFILE TABLE
 */
#define _GNU_SOURCE
#include <limits.h>
#include <pthread.h>
#include "parties.h"

enum { STACK = 256 << 10, THREADS = 16, TIMES = 50 };

/* Of the calls of this thread: how many allocations come before one fails, how many were made, how many blocks there
 * are; whether all behind the one fail, too. */
static __thread long before = LONG_MAX, made, blocks;
static __thread int all_behind;

void *__real_malloc(size_t size);
void *__real_realloc(void *old, size_t size);
void __real_free(void *at);

static int fails(void) {
    long place = made++;
    return all_behind ? place >= before : place == before;
}

void *__wrap_malloc(size_t size) {
    void *at = fails() ? NULL : __real_malloc(size);
    blocks += at != NULL;
    return at;
}

void *__wrap_realloc(void *old, size_t size) { return fails() ? NULL : __real_realloc(old, size); }

void __wrap_free(void *at) {
    blocks -= at != NULL;
    __real_free(at);
}

/* ---- the inputs, and what a call hands out */

static struct scf_bytes filter, own_profile, own_table, stack[2];
static const char spelled[] = "ld [0]\njeq #1, yes, no\nyes: ret #0x7fff0000\nno: ret #0x50001\n";

struct result {
    uint32_t status, answer, steps;
    size_t count, needed;
    struct scf_fault fault;
    struct scf_decision decision;
    struct scf_answer reply;
    struct scf_left_out left_out;
    struct scf_comparison found;
    size_t path[64];
    struct scf_records_finding each[1024];
    struct scf_listing listing;
    struct scf_region regions[4096];
    struct scf_fact facts[1 << 14];
    uint8_t text[1 << 16];
};

typedef void (*call_type)(struct result *);

#define IN(bytes) (bytes).at, (bytes).len
#define OUT r->text, sizeof r->text, &r->needed, &r->fault

static void checks_filter(struct result *r) { r->status = scf_check(IN(filter), &r->count, &r->fault); }

static void runs(struct result *r) {
    struct scf_call call = call_of(1);
    r->status = scf_run(IN(filter), &call, &r->answer, &r->steps, &r->fault);
}

static void traces(struct result *r) {
    struct scf_call call = call_of(1);
    r->status = scf_trace(IN(filter), &call, &r->answer, r->path, 64, &r->needed, &r->fault);
}

static void lists(struct result *r) { r->status = scf_list(IN(filter), OUT); }

static void assembles(struct result *r) { r->status = scf_assemble((const uint8_t *)spelled, strlen(spelled), OUT); }

static void decides(struct result *r) {
    struct scf_call call = call_of(1);
    r->status = scf_decide(stack, 2, &call, &r->decision, &r->fault);
}

/* The profile lists both, and the one table serves for both; with a stub, which no call comes to. */
static void set_tables(struct scf_table *tables) {
    memset(tables, 0, 2 * sizeof *tables);
    tables[0].architecture = SCF_TABLE_X86_64, tables[1].architecture = SCF_TABLE_X86;
    tables[0].bytes = tables[1].bytes = own_table;
    tables[1].has_stub = 1, tables[1].stub = UINT32_MAX;
}

static struct scf_profile read_profile(void) {
    struct scf_profile own = read_by("", SCF_STRICT);
    own.text = own_profile;
    own.flags = SCF_SKIP_UNLISTED;
    return own;
}

static void compiles(struct result *r) {
    struct scf_profile own = read_profile();
    struct scf_table tables[2];
    set_tables(tables);
    r->status = scf_compile(&own, tables, 2, r->text, sizeof r->text, &r->needed, &r->left_out, &r->fault);
}

static void asks(struct result *r) {
    struct scf_profile own = read_profile();
    struct scf_call call = call_of(1);
    struct scf_table tables[2];
    set_tables(tables);
    r->status = scf_ask(&own, tables, 2, &call, &r->reply, &r->fault);
}

static void compare(struct result *r, uint32_t left_kind, uint32_t right_kind, uint32_t scope) {
    struct scf_side left = with_filters(&filter, 1), right = with_filters(stack, 2);
    struct scf_question question = asked(scope, SCF_SAME);
    struct scf_table tables[2];
    set_tables(tables);
    left.kind = left_kind, right.kind = right_kind;
    left.profile = right.profile = read_profile();
    r->status = scf_compare(&left, &right, tables, 2, &question, &r->found, r->each, 1024, &r->count, OUT);
}

static void compares(struct result *r) { compare(r, SCF_FILTERS, SCF_PROFILE, SCF_EACH_ARCHITECTURE); }

static void compares_stacks(struct result *r) { compare(r, SCF_FILTERS, SCF_FILTERS, SCF_ALL_CALLS); }

static void compares_profiles(struct result *r) { compare(r, SCF_PROFILE, SCF_PROFILE, SCF_ALL_CALLS); }

static void compares_calls(struct result *r) { compare(r, SCF_FILTERS, SCF_PROFILE, SCF_EACH_CALL); }

static void answers(struct result *r) {
    struct scf_side side = with_filters(stack, 2);
    struct scf_question question = asked(SCF_ALL_CALLS, SCF_SAME);
    r->status = scf_answers(&side, NULL, 0, &question, &r->listing, r->regions, 4096, &r->count, r->facts, 1 << 14,
                            &r->needed, &r->fault);
}

static const call_type calls[] = {
    checks_filter, runs, traces, lists, assembles, decides, compiles, asks, compares, compares_stacks,
    compares_profiles, compares_calls, answers,
};
enum { CALLS = sizeof calls / sizeof *calls };

static struct result *expected;

static int is_alike(const struct result *one, const struct result *other) {
    return memcmp(one, other, sizeof *one) == 0;
}

/* ---- what is tried */

static void fail_each(int at, struct result *r, int all) {
    long place;
    for (place = 0;; place++) {
        memset(r, 0, sizeof *r);
        made = blocks = 0, before = place, all_behind = all;
        calls[at](r);
        before = LONG_MAX;
        IS(blocks == 0);
        if (made <= place) break;
        if (r->status == SCF_NO_MEMORY) {
            IS(r->fault.source != 0 && r->fault.kind == SCF_KIND_MEMORY && is_zero(r->fault.numbers, 24));
            r->status = 0;
            memset(&r->fault, 0, sizeof r->fault);
            IS(is_zero(r, sizeof *r));
        } else {
            /* a smaller allocation did */
            IS(!all && is_alike(r, &expected[at]));
        }
        memset(r, 0, sizeof *r);
        calls[at](r);
        IS(is_alike(r, &expected[at]));
    }
    IS(place > 0);
}

static void *with_little_stack(void *unused) {
    struct result *r = (struct result *)__real_malloc(sizeof *r);
    int at;
    for (at = 0; at < CALLS; at++) {
        memset(r, 0, sizeof *r);
        calls[at](r);
        IS(is_alike(r, &expected[at]));
    }
    __real_free(r);
    return unused;
}

static void *many_times(void *unused) {
    int i;
    for (i = 0; i < TIMES; i++) with_little_stack(NULL);
    return unused;
}

static struct scf_bytes whole(const char *name) {
    static uint8_t room[3][1 << 17];
    static int next;
    uint8_t *at = room[next++];
    FILE *file = fopen(name, "rb");
    size_t len = file != NULL ? fread(at, 1, sizeof room[0], file) : 0;
    IS(len > 0 && len < sizeof room[0]);
    fclose(file);
    return bytes_of(at, len);
}

int main(int argc, char **argv) {
    pthread_t threads[THREADS];
    pthread_attr_t little;
    struct result *r = (struct result *)__real_malloc(sizeof *r);
    int at;
    if (argc != 4) return 2;
    filter = whole(argv[1]), own_profile = whole(argv[2]), own_table = whole(argv[3]);
    stack[0] = bytes_of(positive, sizeof positive), stack[1] = filter;
    expected = (struct result *)__real_malloc(CALLS * sizeof *expected);
    memset(expected, 0, CALLS * sizeof *expected);
    for (at = 0; at < CALLS; at++) {
        calls[at](&expected[at]);
        IS(expected[at].status == SCF_OK);
    }
    for (at = 0; at < CALLS; at++) {
        fail_each(at, r, 0);
        fail_each(at, r, 1);
    }
    pthread_attr_init(&little);
    pthread_attr_setstacksize(&little, STACK);
    IS(pthread_create(threads, &little, with_little_stack, NULL) == 0 && pthread_join(threads[0], NULL) == 0);
    for (at = 0; at < THREADS; at++) IS(pthread_create(&threads[at], NULL, many_times, NULL) == 0);
    for (at = 0; at < THREADS; at++) IS(pthread_join(threads[at], NULL) == 0);
    printf("%ld checks\n", checks);
    return 0;
}
