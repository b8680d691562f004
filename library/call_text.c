/* scf_call_text: a call in words, by the names of scf's own tables. */
#include "architectures.h"
#include <scf.h>
#include <stdio.h>
#include <stdlib.h>
#include <string.h>

#define NAMED(of, file, text, first) {text, SCF_AUDIT_##of, first},

/* By the number of the table, from 1. */
static const struct {
    const char *name;
    uint32_t audit, first;
} architectures[] = {EACH_ARCHITECTURE(NAMED)};

enum { COUNT = sizeof architectures / sizeof *architectures };

/* The index of the architecture of a call: x32's numbers follow x86-64's. */
static size_t architecture_of(const struct scf_call *call) {
    const int is_x32 = call->arch == SCF_AUDIT_X32 && call->nr >= SCF_X32_BIT;
    size_t i = 0;
    while (i < COUNT && (architectures[i].audit != call->arch || is_x32 != (architectures[i].first != 0))) i++;
    return i;
}

/* The first name that a table has for a number: lines `NAME NUMBER`, and others that begin with #. */
static const char *name_in(uint32_t table, uint32_t number, size_t *length) {
    size_t size;
    const char *line = (const char *)scf_table(table, &size), *const end = line + size;
    for (const char *next; line < end; line = next + 1) {
        next = memchr(line, '\n', (size_t)(end - line));
        const char *blank = next != NULL ? memchr(line, ' ', (size_t)(next - line)) : NULL;
        if (next == NULL) break;
        if (*line != '#' && blank != NULL && strtoul(blank + 1, NULL, 10) == number) {
            *length = (size_t)(blank - line);
            return line;
        }
    }
    return NULL;
}

void scf_call_text(const struct scf_call *call, char *text, size_t room, size_t *needed) {
    const size_t of = architecture_of(call);
    char own[400], spelled[24];
    const char *name = NULL;
    size_t length = 0, end;
    if (of < COUNT) name = name_in((uint32_t)of + 1, call->nr - architectures[of].first, &length);
    if (name == NULL) {
        length = (size_t)snprintf(spelled, sizeof spelled, "syscall %u", call->nr);
        name = spelled;
    }
    end = (size_t)snprintf(own, sizeof own, "%.*s(", (int)length, name);
    for (size_t i = 0; i < 6; i++)
        end += (size_t)snprintf(own + end, sizeof own - end, "%s0x%llx", i != 0 ? ", " : "",
                                (unsigned long long)call->args[i]);
    if (of < COUNT) end += (size_t)snprintf(own + end, sizeof own - end, ") of %s", architectures[of].name);
    else end += (size_t)snprintf(own + end, sizeof own - end, ") of arch 0x%x", call->arch);
    if (room != 0) memcpy(text, own, end < room ? end : room);
    *needed = end;
}
