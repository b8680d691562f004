/* Filters, profiles and tables for the tests, and what checks them. The answers are those of linux/seccomp.h and of the
 * OCI specification. */
#ifndef PARTIES_H
#define PARTIES_H

#include <scf.h>
#include <stdio.h>
#include <stdlib.h>
#include <string.h>

#define RET_ALLOW 0x7fff0000u
#define RET_EPERM 0x00050001u
#define RET_ENOSYS 0x00050026u
#define RET_KILL_PROCESS 0x80000000u

static const uint8_t allow[] = {6, 0, 0, 0, 0, 0, 0xff, 0x7f};
static const uint8_t deny[] = {6, 0, 0, 0, 1, 0, 5, 0};
/* a = word 0; a > 0 allows, a = 0 denies */
static const uint8_t positive[] = {0x20, 0, 0, 0, 0, 0, 0, 0, 0x25, 0, 0, 1, 0, 0, 0, 0, 6, 0, 0, 0, 0, 0, 0xff, 0x7f,
                                   6,    0, 0, 0, 1, 0, 5, 0};
/* denies: word 4 with its lowest bit set, XOR the word, has no other bit; but no comparison splits that far */
static const uint8_t unknown_zero[] = {
    0x20, 0, 0, 0, 16, 0, 0, 0, 7,    0, 0, 0, 0, 0, 0, 0, 0x44, 0, 0, 0, 1, 0, 0, 0,
    0xac, 0, 0, 0, 0,  0, 0, 0, 0x74, 0, 0, 0, 1, 0, 0, 0, 0x15, 0, 0, 1, 0, 0, 0, 0,
    6,    0, 0, 0, 1,  0, 5, 0, 6,    0, 0, 0, 0, 0, 0xff, 0x7f};
static const char profile[] =
    "{\"defaultAction\": \"SCMP_ACT_ERRNO\", \"syscalls\": [{\"names\": [\"write\", \"absent\"], \"action\": "
    "\"SCMP_ACT_ALLOW\"}]}";
static const char table[] = "read 0\nwrite 1\n";

static long checks;

#define IS(holds)                                                                                                      \
    do {                                                                                                               \
        checks++;                                                                                                      \
        if (!(holds)) {                                                                                                \
            fprintf(stderr, "%s:%d: %s\n", __FILE__, __LINE__, #holds);                                                \
            exit(1);                                                                                                   \
        }                                                                                                              \
    } while (0)

static struct scf_bytes bytes_of(const void *at, size_t len) {
    struct scf_bytes bytes;
    bytes.at = (const uint8_t *)at;
    bytes.len = len;
    return bytes;
}

static struct scf_bytes text_of(const char *text) { return bytes_of(text, strlen(text)); }

static struct scf_call call_of(uint32_t nr) {
    struct scf_call call;
    memset(&call, 0, sizeof call);
    call.nr = nr;
    call.arch = SCF_AUDIT_X86_64;
    return call;
}

static struct scf_profile read_by(const char *text, uint32_t reading) {
    struct scf_profile own;
    memset(&own, 0, sizeof own);
    own.text = text_of(text);
    own.reading = reading;
    return own;
}

static struct scf_side with_profile(const char *text) {
    struct scf_side side;
    memset(&side, 0, sizeof side);
    side.kind = SCF_PROFILE;
    side.profile = read_by(text, SCF_STRICT);
    return side;
}

static struct scf_side with_filters(const struct scf_bytes *filters, size_t count) {
    struct scf_side side;
    memset(&side, 0, sizeof side);
    side.kind = SCF_FILTERS;
    side.filters = filters;
    side.filters_len = count;
    return side;
}

static struct scf_table table_of(uint32_t architecture, const char *text) {
    struct scf_table own;
    memset(&own, 0, sizeof own);
    own.architecture = architecture;
    own.bytes = text_of(text);
    return own;
}

static struct scf_question asked(uint32_t scope, uint32_t relation) {
    struct scf_question question;
    memset(&question, 0, sizeof question);
    question.scope = scope;
    question.relation = relation;
    question.limit = question.total_limit = SCF_LIMIT;
    return question;
}

/* of x86-64's calls with a number of a range */
static struct scf_question asked_of(uint32_t first, uint32_t last, uint32_t relation) {
    struct scf_question question = asked(SCF_NUMBERS, relation);
    question.architecture = SCF_TABLE_X86_64;
    question.first = first, question.last = last;
    return question;
}

/* Whether these bytes are all 0. */
static int is_zero(const void *at, size_t size) {
    size_t i;
    for (i = 0; i < size; i++)
        if (((const uint8_t *)at)[i] != 0) return 0;
    return 1;
}

static int is_fault(const struct scf_fault *fault, uint32_t source, uint32_t kind, uint64_t first) {
    return fault->source == source && fault->kind == kind && fault->numbers[0] == first
        && is_zero(fault->numbers + 1, 2 * sizeof fault->numbers[0]);
}

#endif
