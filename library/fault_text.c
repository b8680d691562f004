/* scf_fault_text: a fault in words, those of docs/FAULTS.md, which library/build turns into the rows of faults.inc. */
#include <scf.h>
#include <stdio.h>
#include <string.h>

/* A row: of a source and a kind, by their numbers and their names, the names of its numbers, which is `entry` in
 * brackets if there may be none. */
static const struct row {
    uint32_t source, kind;
    const char *source_name, *kind_name, *numbers, *meaning;
} rows[] = {
#include "faults.inc"
};

struct output {
    char *text;
    size_t room, length;
};

static void add(struct output *output, const char *text, size_t length) {
    const size_t left = output->length < output->room ? output->room - output->length : 0;
    if (left != 0) memcpy(output->text + output->length, text, length < left ? length : left);
    output->length += length;
}

static void add_text(struct output *output, const char *text) { add(output, text, strlen(text)); }

static void add_number(struct output *output, uint64_t number) {
    char digits[24];
    add(output, digits, (size_t)snprintf(digits, sizeof digits, " %llu", (unsigned long long)number));
}

static const struct row *row_of(uint32_t source, uint32_t kind) {
    for (size_t i = 0; i < sizeof rows / sizeof *rows; i++)
        if (rows[i].source == source && rows[i].kind == kind) return rows + i;
    return NULL;
}

/* What a fault of a side beside another means stands with the input of that side. */
static const struct row *row_beside(const struct scf_fault *fault) {
    const uint32_t inputs[] = {SCF_SOURCE_BESIDE, SCF_SOURCE_PROFILE, SCF_SOURCE_TABLE};
    const struct row *row = NULL;
    /* (a stack with too many instructions says how many) */
    if (fault->kind == SCF_KIND_TOO_MANY && fault->numbers[0] == 0) return row_of(SCF_SOURCE_PROFILE, fault->kind);
    for (size_t i = 0; row == NULL && i < sizeof inputs / sizeof *inputs; i++) row = row_of(inputs[i], fault->kind);
    return row;
}

/* The numbers behind their names, which stand between blanks. */
static void add_numbers(struct output *output, const struct row *row, const struct scf_fault *fault) {
    const char *name = row->numbers;
    if (name[0] == '[') {
        if (fault->numbers[0] == SCF_NO_ENTRY) return;
        name = "entry";
    }
    for (size_t i = 0; i < 3 && *name != '\0'; i++) {
        const size_t length = strcspn(name, " ");
        add_text(output, " ");
        add(output, name, length);
        add_number(output, fault->numbers[i]);
        name += length + (name[length] == ' ');
    }
}

void scf_fault_text(const struct scf_fault *fault, char *text, size_t room, size_t *needed) {
    struct output output = {text, room, 0};
    const int is_beside = fault->source == SCF_SOURCE_BESIDE;
    const struct row *row = is_beside ? row_beside(fault) : row_of(fault->source, fault->kind);
    if (row != NULL) {
        add_text(&output, "fault ");
        add_text(&output, is_beside ? "beside" : row->source_name);
        add_text(&output, " ");
        add_text(&output, row->kind_name);
        add_numbers(&output, row, fault);
        add_text(&output, "\n");
        add_text(&output, row->meaning);
        add_text(&output, "\n");
    }
    *needed = output.length;
}
