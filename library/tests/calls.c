/* Each call of libscf: its answers, each status, and that every result is set however the call ends. C99 and C++. */
#include "parties.h"

/* What isn't set keeps these bytes. */
enum { UNSET = 0xa5 };

static struct scf_fault fault;
static struct scf_comparison found;
static struct scf_records_finding each[4];
static struct scf_answer reply;
static struct scf_decision decision;
static struct scf_left_out left_out;
static uint8_t text[4096];
static size_t needed, count;
static uint32_t answer, steps;

static void unset(void) {
    memset(&fault, UNSET, sizeof fault);
    memset(&found, UNSET, sizeof found);
    memset(each, UNSET, sizeof each);
    memset(&reply, UNSET, sizeof reply);
    memset(&left_out, UNSET, sizeof left_out);
    memset(text, UNSET, sizeof text);
    memset(&needed, UNSET, sizeof needed);
    memset(&count, UNSET, sizeof count);
    memset(&answer, UNSET, sizeof answer);
    memset(&decision, UNSET, sizeof decision);
    memset(&steps, UNSET, sizeof steps);
}

/* Nothing was handed out. */
static int is_nothing(void) { return needed == 0 && text[0] == UNSET; }

static int is_text(const char *wanted) {
    return needed == strlen(wanted) && memcmp(text, wanted, needed) == 0 && text[needed] == UNSET;
}

static void filters(void) {
    struct scf_call read = call_of(0), write = call_of(1);
    uint8_t cut[9];
    memset(cut, 0, sizeof cut);
    unset();
    IS(scf_version() == SCF_VERSION);
    IS(scf_check(positive, sizeof positive, &count, &fault) == SCF_OK);
    IS(count == sizeof positive / 8 && is_zero(&fault, sizeof fault));
    unset();
    IS(scf_check(NULL, 0, &count, &fault) == SCF_REFUSED);
    IS(count == 0 && is_fault(&fault, SCF_SOURCE_FILTER, SCF_KIND_EMPTY, 0));
    IS(scf_check(cut, sizeof cut, &count, &fault) == SCF_REFUSED);
    IS(is_fault(&fault, SCF_SOURCE_FILTER, SCF_KIND_TRUNCATED, 8));
    IS(scf_run(positive, sizeof positive, &write, &answer, &steps, &fault) == SCF_OK);
    IS(answer == RET_ALLOW && steps == 3 && is_zero(&fault, sizeof fault));
    IS(scf_run(positive, sizeof positive, &read, &answer, &steps, &fault) == SCF_OK);
    IS(answer == RET_EPERM && steps == 3);
    unset();
    IS(scf_run(positive, 8, &read, &answer, &steps, &fault) == SCF_REFUSED);
    IS(answer == 0 && steps == 0 && is_fault(&fault, SCF_SOURCE_FILTER, SCF_KIND_LAST_NOT_RETURN, 0));
}

static void paths(void) {
    struct scf_call read = call_of(0);
    size_t path[4] = {7, 7, 7, 7};
    unset();
    IS(scf_trace(positive, sizeof positive, &read, &answer, path, 4, &needed, &fault) == SCF_OK);
    IS(answer == RET_EPERM && needed == 3 && path[0] == 0 && path[1] == 1 && path[2] == 3 && path[3] == 7);
    path[1] = 7;
    IS(scf_trace(positive, sizeof positive, &read, &answer, path, 1, &needed, &fault) == SCF_OK);
    IS(needed == 3 && path[0] == 0 && path[1] == 7);
    unset();
    IS(scf_trace(NULL, 0, &read, &answer, path, 4, &needed, &fault) == SCF_REFUSED);
    IS(answer == 0 && needed == 0 && path[1] == 7 && is_fault(&fault, SCF_SOURCE_FILTER, SCF_KIND_EMPTY, 0));
}

static int is_decided(uint32_t by, uint64_t filter, uint64_t index, uint32_t wanted) {
    return decision.answer == wanted && decision.has_filter == by && decision.filter == filter
        && decision.index == index && is_zero(decision.reserved, 32) && is_zero(&fault, sizeof fault);
}

static void stacks(void) {
    static const uint8_t enoent[] = {6, 0, 0, 0, 2, 0, 5, 0};
    struct scf_call read = call_of(0), write = call_of(1);
    struct scf_bytes both[2], nine[9];
    static uint8_t large[32768];
    size_t i;
    both[0] = bytes_of(positive, sizeof positive);
    both[1] = bytes_of(allow, sizeof allow);
    unset();
    IS(scf_decide(both, 2, &read, &decision, &fault) == SCF_OK && is_decided(1, 0, 3, RET_EPERM));
    IS(scf_decide(both, 2, &write, &decision, &fault) == SCF_OK && is_decided(1, 1, 0, RET_ALLOW));
    IS(scf_decide(both, 1, &write, &decision, &fault) == SCF_OK && is_decided(1, 0, 2, RET_ALLOW));
    IS(scf_decide(NULL, 0, &read, &decision, &fault) == SCF_OK && is_decided(0, 0, 0, RET_ALLOW));
    both[1] = bytes_of(enoent, sizeof enoent);
    IS(scf_decide(both, 2, &read, &decision, &fault) == SCF_OK && is_decided(1, 1, 0, 0x00050002));
    for (i = 0; i < sizeof large; i += sizeof allow) memcpy(large + i, allow, sizeof allow);
    for (i = 0; i < 9; i++) nine[i] = bytes_of(large, sizeof large);
    unset();
    /* seven of 4096 and 4 each, and the eighth */
    IS(scf_decide(nine, 8, &read, &decision, &fault) == SCF_REFUSED);
    IS(is_zero(&decision, sizeof decision) && is_fault(&fault, SCF_SOURCE_STACK, SCF_KIND_TOO_MANY, 7 * 4100 + 4096));
    IS(scf_decide(nine, 7, &read, &decision, &fault) == SCF_OK);
    both[1] = bytes_of(allow, 3);
    IS(scf_decide(both, 2, &read, &decision, &fault) == SCF_REFUSED);
    IS(is_fault(&fault, SCF_SOURCE_FILTER, SCF_KIND_TRUNCATED, 0));
}

static void texts(void) {
    static const char spelled[] = "ret #0x7fff0000\n", wrong[] = "ld [0]\nrat\n";
    unset();
    IS(scf_assemble((const uint8_t *)spelled, strlen(spelled), text, sizeof text, &needed, &fault) == SCF_OK);
    IS(needed == sizeof allow && memcmp(text, allow, needed) == 0 && text[needed] == UNSET);
    unset();
    IS(scf_assemble((const uint8_t *)spelled, strlen(spelled), text, 3, &needed, &fault) == SCF_OK);
    IS(needed == sizeof allow && memcmp(text, allow, 3) == 0 && text[3] == UNSET);
    IS(scf_assemble((const uint8_t *)spelled, strlen(spelled), NULL, 0, &needed, &fault) == SCF_OK);
    IS(needed == sizeof allow);
    unset();
    IS(scf_assemble((const uint8_t *)wrong, strlen(wrong), text, sizeof text, &needed, &fault) == SCF_REFUSED);
    IS(is_nothing() && is_fault(&fault, SCF_SOURCE_TEXT, SCF_KIND_MNEMONIC, 2));
    unset();
    IS(scf_list(allow, sizeof allow, text, sizeof text, &needed, &fault) == SCF_OK);
    IS(is_text("ret #0x7fff0000\n") && is_zero(&fault, sizeof fault));
    unset();
    IS(scf_list(allow, 7, text, sizeof text, &needed, &fault) == SCF_REFUSED);
    IS(is_nothing() && is_fault(&fault, SCF_SOURCE_FILTER, SCF_KIND_TRUNCATED, 0));
}

static void profiles(void) {
    static const char nothing[] = "{}", conflict[] =
        "{\"defaultAction\": \"SCMP_ACT_LOG\", \"syscalls\": [{\"names\": [\"read\"], \"action\": \"SCMP_ACT_ALLOW\"}, "
        "{\"names\": [\"write\"], \"action\": \"SCMP_ACT_ALLOW\"}, "
        "{\"names\": [\"write\"], \"action\": \"SCMP_ACT_LOG\"}]}";
    struct scf_profile own = read_by(profile, SCF_STRICT);
    struct scf_table names = table_of(SCF_TABLE_X86_64, table);
    struct scf_call read = call_of(0), write = call_of(1), other = call_of(1);
    other.arch = SCF_AUDIT_X86;
    unset();
    IS(scf_ask(&own, &names, 1, &write, &reply, &fault) == SCF_OK);
    IS(reply.answer == RET_ALLOW && reply.reason == SCF_BY_ENTRY && reply.entry == 0 && is_zero(&fault, sizeof fault));
    IS(reply.left_out.skipped == 1 && reply.left_out.not_looked_at == 0 && is_zero(reply.left_out.reserved, 32));
    IS(scf_ask(&own, &names, 1, &read, &reply, &fault) == SCF_OK);
    IS(reply.answer == RET_EPERM && reply.reason == SCF_BY_DEFAULT && reply.entry == 0);
    IS(scf_ask(&own, &names, 1, &other, &reply, &fault) == SCF_OK);
    IS(reply.answer == RET_KILL_PROCESS && reply.reason == SCF_FOREIGN && reply.entry == 0);
    own.text = text_of(nothing);
    unset();
    IS(scf_ask(&own, &names, 1, &read, &reply, &fault) == SCF_REFUSED);
    IS(is_zero(&reply, sizeof reply));
    IS(is_fault(&fault, SCF_SOURCE_PROFILE, SCF_KIND_MISSING, SCF_NO_ENTRY));
    names.bytes = text_of("read");
    unset();
    IS(scf_compile(&own, &names, 1, text, sizeof text, &needed, &left_out, &fault) == SCF_REFUSED);
    IS(is_nothing() && is_fault(&fault, SCF_SOURCE_TABLE, SCF_KIND_FORM, 1) && is_zero(&left_out, sizeof left_out));
    own.text = text_of(conflict), names.bytes = text_of(table);
    IS(scf_compile(&own, &names, 1, text, sizeof text, &needed, &left_out, &fault) == SCF_REFUSED);
    IS(fault.kind == SCF_KIND_CONFLICT && fault.numbers[0] == 1 && fault.numbers[1] == 1 && fault.numbers[2] == 2);
}

/* Entry 1, whose answer is the default's, is none to a runtime; runc's stub answers from 1 on. */
static void readings(void) {
    static const char repeated[] =
        "{\"defaultAction\": \"SCMP_ACT_ERRNO\", \"syscalls\": [{\"names\": [\"write\"], \"action\": "
        "\"SCMP_ACT_ALLOW\"}, {\"names\": [\"write\"], \"action\": \"SCMP_ACT_ERRNO\"}]}";
    struct scf_table names = table_of(SCF_TABLE_X86_64, table);
    struct scf_call read = call_of(0), write = call_of(1);
    uint32_t reading;
    for (reading = SCF_STRICT; reading <= SCF_CRUN; reading++) {
        struct scf_profile own = read_by(repeated, reading);
        IS(scf_ask(&own, &names, 1, &write, &reply, &fault) == (reading == SCF_STRICT ? SCF_REFUSED : SCF_OK));
        if (reading == SCF_STRICT) {
            IS(fault.kind == SCF_KIND_CONFLICT && fault.numbers[0] == 1);
            continue;
        }
        IS(reply.answer == RET_ALLOW && reply.reason == SCF_BY_ENTRY && reply.entry == 0);
        names.has_stub = 1, names.stub = 1;
        IS(scf_ask(&own, &names, 1, &write, &reply, &fault) == SCF_OK);
        IS(reply.answer == RET_ENOSYS && reply.reason == SCF_BY_STUB && reply.entry == 0);
        IS(scf_ask(&own, &names, 1, &read, &reply, &fault) == SCF_OK);
        IS(reply.answer == RET_EPERM && reply.reason == SCF_BY_DEFAULT);
        names.has_stub = 0;
    }
}

/* TRAP's data stand beside it; any other reading but runc's, which ignores them, refuses them. */
static void trap_data(void) {
    static const char trap[] = "{\"defaultAction\": \"SCMP_ACT_TRAP\", \"defaultErrnoRet\": 3}";
    struct scf_table names = table_of(SCF_TABLE_X86_64, table);
    struct scf_call read = call_of(0);
    uint32_t reading;
    for (reading = SCF_STRICT; reading <= SCF_SANDBOX; reading++) {
        struct scf_profile own = read_by(trap, reading);
        int is_taken = reading == SCF_RUNC || reading == SCF_SANDBOX;
        IS(scf_ask(&own, &names, 1, &read, &reply, &fault) == (is_taken ? SCF_OK : SCF_REFUSED));
        IS(is_taken ? reply.answer == (reading == SCF_RUNC ? 0x30000 : 0x30003) : fault.kind == SCF_KIND_ERRNO);
    }
}

static uint32_t compare(const struct scf_side *left, const struct scf_side *right,
                        const struct scf_question *question) {
    struct scf_table names = table_of(SCF_TABLE_X86_64, table);
    unset();
    return scf_compare(left, right, &names, 1, question, &found, each, 4, &count, text, sizeof text, &needed, &fault);
}

/* All that stands behind the verdict is 0, but for what is left out of the right side. */
static int is_only(uint32_t verdict) {
    return found.finding.verdict == verdict && is_zero(&found.finding.left, sizeof found.finding - 4)
        && is_zero(&found.left, sizeof found.left) && is_zero(found.right.reserved, 32);
}

static void comparisons(void) {
    struct scf_bytes filter, other = bytes_of(allow, sizeof allow);
    struct scf_side left = with_filters(&filter, 1), right = with_profile(profile);
    struct scf_question question = asked(SCF_ALL_CALLS, SCF_SAME);
    struct scf_table names = table_of(SCF_TABLE_X86_64, table);
    static uint8_t compiled[4096];
    unset();
    IS(scf_compile(&right.profile, &names, 1, compiled, sizeof compiled, &needed, &left_out, &fault) == SCF_OK);
    IS(left_out.skipped == 1 && left_out.not_looked_at == 0 && is_zero(left_out.reserved, 32));
    filter = bytes_of(compiled, needed);
    IS(compare(&left, &right, &question) == SCF_OK);
    IS(is_text("same\nskipped absent\n") && is_zero(&fault, sizeof fault) && is_only(SCF_HOLDS));
    IS(found.right.skipped == 1 && found.right.not_looked_at == 0);
    IS(count == 1 && each[0].architecture == 0 && each[0].nr == 0 && each[0].finding.verdict == SCF_HOLDS);
    question.limit = 0;
    IS(compare(&left, &right, &question) == SCF_OK && is_only(SCF_UNFINISHED));
    question.limit = SCF_LIMIT, question.total_limit = 0;
    IS(compare(&left, &right, &question) == SCF_OK && is_only(SCF_UNFINISHED));
    left = with_filters(&other, 1);
    question = asked_of(0, 0, SCF_NO_MORE);
    IS(compare(&left, &right, &question) == SCF_OK && found.finding.verdict == SCF_FAILS);
    IS(found.finding.left == RET_ALLOW && found.finding.right == RET_EPERM && found.finding.side == 0);
    IS(found.finding.at == 0 && found.finding.call.nr == 0 && found.finding.call.arch == SCF_AUDIT_X86_64);
    IS(memcmp(text, "more\ncall nr 0 arch 0xc000003e ", 31) == 0);
    IS(compare(&right, &left, &question) == SCF_OK && found.finding.verdict == SCF_HOLDS && found.left.skipped == 1);
    question.relation = SCF_NO_LESS;
    IS(compare(&right, &left, &question) == SCF_OK && found.finding.verdict == SCF_FAILS);
    IS(found.finding.left == RET_EPERM && found.finding.right == RET_ALLOW && found.left.skipped == 1);
    IS(is_zero(&found.right, sizeof found.right));
    question = asked_of(1, 1, SCF_SAME);
    IS(compare(&left, &right, &question) == SCF_OK && is_only(SCF_HOLDS));
    question.last = 2;
    IS(compare(&left, &right, &question) == SCF_OK && found.finding.verdict == SCF_FAILS);
    IS(found.finding.call.nr == 2);
    other = bytes_of(unknown_zero, sizeof unknown_zero);
    question = asked_of(0, 0, SCF_SAME);
    IS(compare(&left, &right, &question) == SCF_OK && found.finding.verdict == SCF_UNDECIDED);
    IS(found.finding.side == 1 && found.finding.at == 7 && is_zero(&found.finding.call, sizeof found.finding.call));
    IS(compare(&right, &right, &question) == SCF_OK && is_zero(found.left.reserved, 32) && found.left.skipped == 1);
    IS(found.finding.verdict == SCF_HOLDS);
}

static void stacks_beside(void) {
    struct scf_bytes filter = bytes_of(positive, sizeof positive);
    struct scf_bytes beside[] = {bytes_of(allow, sizeof allow), bytes_of(deny, sizeof deny)};
    struct scf_side left = with_filters(&filter, 1), right = with_filters(beside, 2);
    struct scf_question question = asked(SCF_ALL_CALLS, SCF_NO_LESS);
    IS(compare(&left, &right, &question) == SCF_OK && is_only(SCF_HOLDS) && is_text("no less\n"));
    question.relation = SCF_SAME_DISPOSITION;
    IS(compare(&left, &right, &question) == SCF_OK && found.finding.verdict == SCF_FAILS);
    IS(found.finding.left == RET_ALLOW && found.finding.right == RET_EPERM && found.finding.call.nr != 0);
    /* two stacks want no table */
    unset();
    IS(scf_compare(&left, &right, NULL, 0, &question, &found, NULL, 0, &count, NULL, 0, &needed, &fault) == SCF_OK);
    IS(found.finding.verdict == SCF_FAILS && count == 1);
    question.scope = SCF_EACH_ARCHITECTURE;
    IS(scf_compare(&left, &right, NULL, 0, &question, &found, NULL, 0, &count, NULL, 0, &needed, &fault) ==
       SCF_WRONG_ARGUMENT);
    IS(found.finding.verdict == SCF_NO_VERDICT && count == 0 && needed == 0);
    question.scope = SCF_ALL_CALLS;
    beside[1].len = 1;
    IS(compare(&left, &right, &question) == SCF_REFUSED);
    IS(is_nothing() && is_zero(&found, sizeof found) && count == 0);
    IS(is_fault(&fault, SCF_SOURCE_BESIDE, SCF_KIND_TRUNCATED, 0));
    filter.len = 1;
    IS(compare(&left, &right, &question) == SCF_REFUSED);
    IS(is_fault(&fault, SCF_SOURCE_FILTER, SCF_KIND_TRUNCATED, 0));
    left.filters = NULL, left.filters_len = 0;
    IS(compare(&left, &right, &question) == SCF_REFUSED);
    IS(compare(&left, &left, &question) == SCF_OK && found.finding.verdict == SCF_HOLDS);
}

/* Of two profiles the fault says which it is. */
static void profiles_beside(void) {
    struct scf_side left = with_profile(profile), right = with_profile("{");
    struct scf_question question = asked(SCF_ALL_CALLS, SCF_SAME);
    IS(compare(&left, &right, &question) == SCF_REFUSED && fault.source == SCF_SOURCE_BESIDE);
    IS(fault.kind == SCF_KIND_JSON);
    IS(compare(&right, &left, &question) == SCF_REFUSED && fault.source == SCF_SOURCE_PROFILE);
    right = with_filters(NULL, 0);
    left = with_profile("{");
    IS(compare(&right, &left, &question) == SCF_REFUSED && fault.source == SCF_SOURCE_PROFILE);
}

static void call_by_call(void) {
    struct scf_bytes filter = bytes_of(allow, sizeof allow), beside = bytes_of(positive, sizeof positive);
    struct scf_side left = with_filters(&filter, 1), right = with_profile(profile);
    struct scf_question question = asked(SCF_EACH_CALL, SCF_SAME);
    struct scf_table names = table_of(SCF_TABLE_X86_64, table);
    int i;
    IS(compare(&left, &right, &question) == SCF_OK && is_zero(&fault, sizeof fault));
    IS(count == 2 && each[0].nr == 0 && each[1].nr == 1 && each[0].architecture == SCF_TABLE_X86_64);
    IS(each[0].finding.verdict == SCF_FAILS && each[0].finding.left == RET_ALLOW
       && each[0].finding.right == RET_EPERM && each[0].finding.call.nr == 0 && is_zero(each[0].reserved, 32));
    IS(each[1].finding.verdict == SCF_HOLDS && each[2].nr == 0xa5a5a5a5);
    IS(found.finding.verdict == SCF_FAILS && found.finding.call.nr == 0 && memcmp(text, "differs\n", 8) == 0);
    right = with_filters(&beside, 1);
    unset();
    IS(scf_compare(&left, &right, &names, 1, &question, &found, each, 1, &count, text, sizeof text, &needed, &fault)
       == SCF_OK);
    IS(count == 2 && each[0].finding.verdict == SCF_FAILS && each[1].nr == 0xa5a5a5a5);
    question.total_limit = 0;
    IS(compare(&left, &right, &question) == SCF_OK && found.finding.verdict == SCF_UNFINISHED);
    IS(each[0].finding.verdict == SCF_UNFINISHED && each[1].finding.verdict == SCF_UNFINISHED);
    names.bytes = text_of("read 0\nread 1\n");
    unset();
    IS(scf_compare(&left, &right, &names, 1, &question, &found, each, 4, &count, text, sizeof text, &needed, &fault)
       == SCF_REFUSED);
    IS(is_nothing() && count == 0 && each[0].nr == 0xa5a5a5a5);
    IS(is_fault(&fault, SCF_SOURCE_TABLE, SCF_KIND_REPEATED, 2));
    /* no syscall, and so nothing that holds */
    names.bytes = text_of("");
    for (i = 0; i < 3; i++) {
        if (i == 2) question.scope = SCF_EACH_ARCHITECTURE;
        unset();
        IS(scf_compare(&left, &left, &names, i == 0, &question, &found, each, 4, &count, text, sizeof text, &needed,
                       &fault)
           == SCF_WRONG_ARGUMENT);
        IS(is_nothing() && count == 0 && is_zero(&found, sizeof found) && is_zero(&fault, sizeof fault));
    }
}

/* ---- several architectures: the numbers are those of linux/unistd.h */

static const char several[] =
    "{\"defaultAction\": \"SCMP_ACT_ERRNO\", \"architectures\": [\"SCMP_ARCH_X86_64\", \"SCMP_ARCH_X86\", "
    "\"SCMP_ARCH_X32\"], \"syscalls\": [{\"names\": [\"read\"], \"action\": \"SCMP_ACT_ALLOW\"}, {\"names\": "
    "[\"personality\"], \"action\": \"SCMP_ACT_ALLOW\", \"args\": [{\"index\": 0, \"value\": 8, \"op\": "
    "\"SCMP_CMP_EQ\"}]}]}";

static struct scf_table tables[4];

/* The three tables, and one that the profile doesn't list. */
static void set_tables(void) {
    static const uint32_t architectures[4] = {SCF_TABLE_X86_64, SCF_TABLE_X86, SCF_TABLE_X32, SCF_TABLE_ARM};
    size_t i;
    for (i = 0; i < 4; i++)
        tables[i] = table_of(architectures[i], i == 1 ? "read 3\npersonality 136\n" : "read 0\npersonality 135\n");
}

static uint32_t compile_each(size_t count, uint8_t *filter, size_t room) {
    struct scf_profile own = read_by(several, SCF_STRICT);
    return scf_compile(&own, tables, count, filter, room, &needed, &left_out, &fault);
}

static uint32_t compare_each(const struct scf_bytes *filter, size_t tables_len, uint32_t relation, uint64_t limit) {
    struct scf_side left = with_filters(filter, 1), right = with_profile(several);
    struct scf_question question = asked(SCF_EACH_ARCHITECTURE, relation);
    question.limit = limit;
    unset();
    return scf_compare(&left, &right, tables, tables_len, &question, &found, each, 4, &count, text, sizeof text,
                       &needed, &fault);
}

static void asks_of_each(void) {
    static const struct {
        uint32_t nr, arch, answer, reason;
    } rows[] = {
        {0, SCF_AUDIT_X86_64, RET_ALLOW, SCF_BY_ENTRY}, {SCF_X32_BIT, SCF_AUDIT_X32, RET_ALLOW, SCF_BY_ENTRY},
        {3, SCF_AUDIT_X86, RET_ALLOW, SCF_BY_ENTRY},    {3, SCF_AUDIT_X86_64, RET_EPERM, SCF_BY_DEFAULT},
        {0, SCF_AUDIT_X86, RET_EPERM, SCF_BY_DEFAULT},  {0, SCF_AUDIT_AARCH64, RET_KILL_PROCESS, SCF_FOREIGN},
    };
    struct scf_profile own = read_by(several, SCF_STRICT);
    struct scf_call call = call_of(136);
    size_t i;
    set_tables();
    for (i = 0; i < sizeof rows / sizeof *rows; i++) {
        call.nr = rows[i].nr, call.arch = rows[i].arch;
        unset();
        IS(scf_ask(&own, tables, 3, &call, &reply, &fault) == SCF_OK);
        IS(reply.answer == rows[i].answer && reply.reason == rows[i].reason && reply.entry == 0);
        IS(is_zero(&fault, sizeof fault) && is_zero(&reply.left_out, sizeof reply.left_out));
    }
    /* i386 takes the low half of an argument, x86-64 all of it */
    call.nr = 136, call.arch = SCF_AUDIT_X86, call.args[0] = 0x100000008;
    IS(scf_ask(&own, tables, 3, &call, &reply, &fault) == SCF_OK);
    IS(reply.answer == RET_ALLOW && reply.reason == SCF_BY_ENTRY && reply.entry == 1);
    call.nr = 135, call.arch = SCF_AUDIT_X86_64;
    IS(scf_ask(&own, tables, 3, &call, &reply, &fault) == SCF_OK && reply.answer == RET_EPERM);
    /* a stub is that of its architecture alone */
    tables[1].has_stub = 1, tables[1].stub = 3;
    call = call_of(3);
    IS(scf_ask(&own, tables, 3, &call, &reply, &fault) == SCF_OK && reply.answer == RET_EPERM);
    call.arch = SCF_AUDIT_X86;
    IS(scf_ask(&own, tables, 3, &call, &reply, &fault) == SCF_OK && reply.answer == RET_ENOSYS);
    /* what the profile lists without a table is said */
    IS(scf_ask(&own, tables, 1, &call, &reply, &fault) == SCF_OK && reply.left_out.not_looked_at == 2);
    IS(reply.answer == RET_KILL_PROCESS && reply.reason == SCF_FOREIGN);
    unset();
    IS(scf_ask(&own, tables, 4, &call, &reply, &fault) == SCF_REFUSED && is_zero(&reply, sizeof reply));
    IS(is_fault(&fault, SCF_SOURCE_PROFILE, SCF_KIND_NOT_LISTED, 3));
    own.flags = SCF_SKIP_UNLISTED;
    IS(scf_ask(&own, tables, 4, &call, &reply, &fault) == SCF_OK && reply.answer == RET_ENOSYS);
    IS(scf_ask(&own, tables + 3, 1, &call, &reply, &fault) == SCF_OK && reply.left_out.not_looked_at == 3);
    IS(reply.answer == RET_KILL_PROCESS && reply.reason == SCF_FOREIGN);
}

static void compares_each(void) {
    static uint8_t compiled[4096];
    struct scf_bytes filter = bytes_of(compiled, 0), other = bytes_of(allow, sizeof allow);
    set_tables();
    unset();
    IS(compile_each(3, compiled, sizeof compiled) == SCF_OK && is_zero(&fault, sizeof fault));
    filter.len = needed;
    IS(compare_each(&filter, 3, SCF_SAME, SCF_LIMIT) == SCF_OK && is_text("same\n") && is_zero(&fault, sizeof fault));
    IS(is_only(SCF_HOLDS) && count == 3 && each[1].architecture == SCF_TABLE_X86 && each[1].nr == 0);
    IS(compare_each(&filter, 2, SCF_SAME, SCF_LIMIT) == SCF_OK && is_text("same\nother SCMP_ARCH_X32\n"));
    IS(found.right.not_looked_at == 1 && count == 2);
    IS(compare_each(&filter, 3, SCF_SAME, 0) == SCF_OK && found.finding.verdict == SCF_UNFINISHED);
    /* the filter of two architectures kills calls of the third */
    IS(compile_each(2, compiled, sizeof compiled) == SCF_OK && left_out.not_looked_at == 1);
    filter.len = needed;
    IS(compare_each(&filter, 2, SCF_SAME, SCF_LIMIT) == SCF_OK && found.finding.verdict == SCF_HOLDS);
    IS(compare_each(&filter, 3, SCF_SAME, SCF_LIMIT) == SCF_OK && found.finding.verdict == SCF_FAILS);
    IS(found.finding.call.arch == SCF_AUDIT_X86_64 && (found.finding.call.nr & SCF_X32_BIT) != 0);
    IS(found.finding.left == RET_KILL_PROCESS && memcmp(text, "differs\ncall nr ", 16) == 0);
    IS(each[0].finding.verdict == SCF_HOLDS && each[2].finding.verdict == SCF_FAILS);
    IS(compare_each(&filter, 3, SCF_NO_MORE, SCF_LIMIT) == SCF_OK && found.finding.verdict == SCF_HOLDS);
    IS(compare_each(&other, 3, SCF_NO_MORE, SCF_LIMIT) == SCF_OK && found.finding.verdict == SCF_FAILS);
    other = bytes_of(unknown_zero, sizeof unknown_zero);
    IS(compare_each(&other, 3, SCF_NO_MORE, SCF_LIMIT) == SCF_OK && found.finding.verdict == SCF_UNDECIDED);
    IS(found.finding.side == 1 && found.finding.at == 7);
    IS(compare_each(&filter, 4, SCF_SAME, SCF_LIMIT) == SCF_REFUSED && is_nothing() && is_zero(&found, sizeof found));
    IS(is_fault(&fault, SCF_SOURCE_PROFILE, SCF_KIND_NOT_LISTED, 3));
    tables[1].bytes = text_of("read\n");
    IS(compare_each(&filter, 3, SCF_SAME, SCF_LIMIT) == SCF_REFUSED);
    IS(is_fault(&fault, SCF_SOURCE_TABLE, SCF_KIND_FORM, 1));
    filter.len--;
    IS(compare_each(&filter, 3, SCF_SAME, SCF_LIMIT) == SCF_REFUSED && fault.source == SCF_SOURCE_FILTER);
}

/* ---- answers */

/* Of `positive`: number 0 is denied by instruction 3, any other allowed by instruction 2. */
static void answers(void) {
    static struct scf_region regions[64];
    static struct scf_fact facts[256];
    struct scf_bytes filter = bytes_of(positive, sizeof positive);
    struct scf_side side = with_filters(&filter, 1);
    struct scf_question question = asked(SCF_ALL_CALLS, SCF_SAME);
    struct scf_table names = table_of(SCF_TABLE_X86_64, table);
    struct scf_listing listing;
    size_t facts_count, i;
    memset(regions, UNSET, sizeof regions);
    unset();
    IS(scf_answers(&side, NULL, 0, &question, &listing, regions, 64, &count, facts, 256, &facts_count, &fault)
       == SCF_OK);
    IS(listing.is_finished == 1 && count == 2 && is_zero(&fault, sizeof fault) && is_zero(&listing.unused, 52));
    for (i = 0; i < 2; i++) {
        IS(regions[i].is_known == 1 && regions[i].is_exact == 1 && regions[i].has_example == 1);
        IS(regions[i].reason == 0 && regions[i].filter == 0 && regions[i].fact_count >= 1);
        IS(regions[i].index == (regions[i].answer == RET_ALLOW ? 2 : 3));
        IS((regions[i].example.nr == 0) == (regions[i].answer == RET_EPERM) && facts[i].word == 0);
    }
    IS(regions[0].answer != regions[1].answer && regions[2].answer == 0xa5a5a5a5);
    IS(facts[0].kind == SCF_WITHIN && facts_count == regions[0].fact_count + regions[1].fact_count);
    side = with_profile(profile);
    question = asked_of(0, 1, SCF_SAME);
    IS(scf_answers(&side, &names, 1, &question, &listing, regions, 64, &count, facts, 256, &facts_count, &fault)
       == SCF_OK);
    IS(listing.is_finished == 1 && listing.left_out.skipped == 1 && count == 2);
    for (i = 0; i < 2; i++) {
        IS(regions[i].example.nr < 2 && regions[i].example.arch == SCF_AUDIT_X86_64);
        IS(regions[i].reason == (regions[i].example.nr == 1 ? SCF_BY_ENTRY : SCF_BY_DEFAULT));
    }
    question.total_limit = 0;
    IS(scf_answers(&side, &names, 1, &question, &listing, regions, 64, &count, facts, 256, &facts_count, &fault)
       == SCF_OK);
    IS(listing.is_finished == 0 && count == 0 && facts_count == 0);
    side = with_filters(&filter, 1);
    filter.len = 1;
    IS(scf_answers(&side, &names, 1, &question, &listing, regions, 64, &count, facts, 256, &facts_count, &fault)
       == SCF_REFUSED);
    IS(is_fault(&fault, SCF_SOURCE_FILTER, SCF_KIND_TRUNCATED, 0) && is_zero(&listing, sizeof listing) && count == 0);
    question = asked(SCF_EACH_ARCHITECTURE, SCF_SAME);
    filter = bytes_of(allow, sizeof allow);
    side = with_filters(&filter, 1);
    IS(scf_answers(&side, NULL, 0, &question, &listing, regions, 64, &count, facts, 256, &facts_count, &fault)
       == SCF_WRONG_ARGUMENT);
    IS(is_zero(&listing, sizeof listing) && count == 0 && facts_count == 0 && is_zero(&fault, sizeof fault));
    side.kind = 9;
    IS(scf_answers(&side, &names, 1, &question, &listing, regions, 64, &count, facts, 256, &facts_count, &fault)
       == SCF_WRONG_ARGUMENT);
    side = with_filters(&filter, 1);
    for (i = SCF_NO_MORE; i <= SCF_SAME_DISPOSITION; i++) {
        question = asked(SCF_ALL_CALLS, (uint32_t)i);
        unset();
        IS(scf_answers(&side, NULL, 0, &question, &listing, regions, 64, &count, facts, 256, &facts_count, &fault)
           == SCF_WRONG_ARGUMENT);
        IS(is_zero(&listing, sizeof listing) && count == 0 && facts_count == 0 && is_zero(&fault, sizeof fault));
    }
}

/* Of filters that answer alike the newest is named (seccomp(2)), of entries that a call meets the first. */
static void answers_by_one_of_several(void) {
    static const char twice[] =
        "{\"defaultAction\": \"SCMP_ACT_ERRNO\", \"syscalls\": ["
        "{\"names\": [\"write\"], \"action\": \"SCMP_ACT_ALLOW\"}, "
        "{\"names\": [\"read\"], \"action\": \"SCMP_ACT_ALLOW\", "
        "\"args\": [{\"index\": 0, \"value\": 5, \"op\": \"SCMP_CMP_EQ\"}]}, "
        "{\"names\": [\"read\", \"write\"], \"action\": \"SCMP_ACT_ALLOW\", "
        "\"args\": [{\"index\": 0, \"value\": 5, \"op\": \"SCMP_CMP_EQ\"}]}]}";
    static struct scf_region regions[64];
    static struct scf_fact facts[256];
    struct scf_bytes stack[3];
    struct scf_side side;
    struct scf_question question = asked(SCF_ALL_CALLS, SCF_SAME);
    struct scf_table names = table_of(SCF_TABLE_X86_64, table);
    struct scf_listing listing;
    size_t facts_count, i;
    stack[0] = stack[1] = bytes_of(positive, sizeof positive);
    stack[2] = bytes_of(allow, sizeof allow);
    side = with_filters(stack, 3);
    IS(scf_answers(&side, NULL, 0, &question, &listing, regions, 64, &count, facts, 256, &facts_count, &fault)
       == SCF_OK);
    IS(count == 2);
    for (i = 0; i < count; i++) {
        IS(regions[i].filter == (regions[i].answer == RET_EPERM ? 1 : 2));
        IS(regions[i].index == (regions[i].answer == RET_EPERM ? 3 : 0));
    }
    side = with_profile(twice);
    question = asked_of(0, 1, SCF_SAME);
    IS(scf_answers(&side, &names, 1, &question, &listing, regions, 64, &count, facts, 256, &facts_count, &fault)
       == SCF_OK);
    for (i = 0; i < count; i++) {
        const struct scf_call *call = &regions[i].example;
        if (call->nr == 0 && call->args[0] != 5) IS(regions[i].reason == SCF_BY_DEFAULT);
        else IS(regions[i].reason == SCF_BY_ENTRY && regions[i].entry == (call->nr == 0 ? 1 : 0));
    }
    IS(count >= 3);
}

/* No table, one that is there twice, and each number without a meaning is a wrong argument; no input is looked at. */
static void wrong_tables(void) {
    struct scf_bytes cut = bytes_of(allow, 1);
    struct scf_profile own = read_by("{", SCF_STRICT);
    struct scf_side left = with_filters(&cut, 1), right = with_profile("{");
    struct scf_question question = asked(SCF_EACH_ARCHITECTURE, SCF_SAME);
    struct scf_call call = call_of(0);
    size_t i, tables_len;
    for (i = 0; i < 7; i++) {
        set_tables();
        tables_len = i == 0 ? 0 : 3;
        if (i == 1) tables[2].architecture = SCF_TABLE_X86_64;
        if (i == 2) tables[1].architecture = SCF_TABLE_X32;
        if (i == 3) tables[0].architecture = 0;
        if (i == 4) tables[2].architecture = SCF_ARCHITECTURES + 1;
        if (i == 5) tables[1].reserved = 1;
        if (i == 6) tables[1].has_stub = 2;
        unset();
        IS(scf_compare(&left, &right, tables, tables_len, &question, &found, each, 4, &count, text, sizeof text,
                       &needed, &fault)
           == SCF_WRONG_ARGUMENT);
        IS(is_nothing() && count == 0 && is_zero(&found, sizeof found) && is_zero(&fault, sizeof fault));
        unset();
        IS(scf_compile(&own, tables, tables_len, text, sizeof text, &needed, &left_out, &fault)
           == SCF_WRONG_ARGUMENT);
        IS(is_nothing() && is_zero(&fault, sizeof fault) && is_zero(&left_out, sizeof left_out));
        unset();
        IS(scf_ask(&own, tables, tables_len, &call, &reply, &fault) == SCF_WRONG_ARGUMENT);
        IS(is_zero(&reply, sizeof reply) && is_zero(&fault, sizeof fault));
    }
    set_tables();
    for (i = 0; i < 4; i++) {
        own = read_by("{", i == 0 ? 4 : SCF_CRUN);
        if (i == 1) own.flags = 2;
        if (i >= 2) own.reserved[i - 2] = 1;
        IS(scf_ask(&own, tables, 3, &call, &reply, &fault) == SCF_WRONG_ARGUMENT);
        right.profile = own;
        IS(scf_compare(&left, &right, tables, 3, &question, &found, each, 4, &count, text, sizeof text, &needed, &fault)
           == SCF_WRONG_ARGUMENT);
    }
    unset();
    own = read_by("{", SCF_STRICT);
    IS(scf_compile(&own, tables, 3, text, sizeof text, &needed, &left_out, &fault) == SCF_REFUSED);
    IS(is_nothing() && fault.source == SCF_SOURCE_PROFILE && fault.kind == SCF_KIND_JSON);
}

/* Each number without a meaning is a wrong argument; no input is looked at. */
static void wrong_arguments(void) {
    struct scf_bytes cut = bytes_of(allow, 1);
    struct scf_side left = with_filters(&cut, 1), right = with_profile(profile);
    struct scf_question question = asked_of(0, 1, SCF_SAME);
    uint32_t *numbers[7];
    size_t i;
    numbers[0] = &question.scope, numbers[1] = &question.relation, numbers[2] = &question.architecture;
    numbers[3] = &question.unused, numbers[4] = &right.kind, numbers[5] = &right.reserved, numbers[6] = &left.kind;
    for (i = 0; i < 9; i++) {
        uint32_t was = 0;
        if (i < 7) was = *numbers[i], *numbers[i] = 99;
        else question.reserved[i - 7] = 1;
        IS(compare(&left, &right, &question) == SCF_WRONG_ARGUMENT);
        IS(is_nothing() && count == 0 && is_zero(&found, sizeof found) && is_zero(&fault, sizeof fault));
        if (i < 7) *numbers[i] = was;
        else question.reserved[i - 7] = 0;
    }
    IS(compare(&left, &right, &question) == SCF_REFUSED);
    /* ranges without a number that calls of the architecture have */
    question = asked_of(1, 0, SCF_SAME);
    IS(compare(&left, &right, &question) == SCF_WRONG_ARGUMENT);
    question = asked_of(SCF_X32_BIT, UINT32_MAX, SCF_SAME);
    IS(compare(&left, &right, &question) == SCF_WRONG_ARGUMENT);
    question.architecture = SCF_TABLE_X32;
    IS(compare(&left, &right, &question) == SCF_REFUSED);
    question.first = 0, question.last = SCF_X32_BIT - 1;
    IS(compare(&left, &right, &question) == SCF_WRONG_ARGUMENT);
}

/* ---- the texts of faults: the lines of docs/FAULTS.md */

static int is_fault_text(uint32_t source, uint32_t kind, uint64_t first, uint64_t second, uint64_t third,
                         const char *wanted) {
    struct scf_fault own;
    memset(&own, 0, sizeof own);
    own.source = source, own.kind = kind;
    own.numbers[0] = first, own.numbers[1] = second, own.numbers[2] = third;
    unset();
    scf_fault_text(&own, (char *)text, sizeof text, &needed);
    return needed < sizeof text && text[needed] == UNSET && needed >= strlen(wanted)
        && memcmp(text, wanted, strlen(wanted)) == 0 && (*wanted != '\0' || needed == 0);
}

static void fault_texts(void) {
    size_t whole;
    IS(is_fault_text(SCF_SOURCE_PROFILE, SCF_KIND_CONFLICT, 308, 1, 10,
                     "fault profile Conflict number 308 first 1 second 10\nTwo entries, "));
    IS(is_fault_text(SCF_SOURCE_BESIDE, SCF_KIND_CONFLICT, 308, 1, 10,
                     "fault beside Conflict number 308 first 1 second 10\nTwo entries, "));
    IS(is_fault_text(SCF_SOURCE_PROFILE, SCF_KIND_INDEX, 7, 0, 0, "fault profile Index entry 7\nA condition's index "));
    IS(is_fault_text(SCF_SOURCE_PROFILE, SCF_KIND_INDEX, SCF_NO_ENTRY, 0, 0, "fault profile Index\nA condition's "));
    IS(is_fault_text(SCF_SOURCE_FILTER, SCF_KIND_EMPTY, 0, 0, 0,
                     "fault filter Empty\nThe filter has no instruction.\n"));
    whole = needed;
    IS(is_fault_text(SCF_SOURCE_BESIDE, SCF_KIND_TOO_MANY, 32796, 0, 0, "fault beside TooMany total 32796\nWith this "));
    IS(is_fault_text(SCF_SOURCE_BESIDE, SCF_KIND_TOO_MANY, 0, 0, 0, "fault beside TooMany\nThe profile has "));
    IS(is_fault_text(SCF_SOURCE_COMPARE, SCF_KIND_MEMORY, 0, 0, 0, "fault compare Memory\nOut of memory."));
    IS(is_fault_text(0, 0, 0, 0, 0, "") && is_fault_text(99, 1, 0, 0, 0, "") && is_fault_text(1, 99, 0, 0, 0, ""));
    memset(&fault, 0, sizeof fault);
    fault.source = SCF_SOURCE_FILTER, fault.kind = SCF_KIND_EMPTY;
    memset(text, UNSET, sizeof text);
    scf_fault_text(&fault, (char *)text, 3, &needed);
    IS(needed == whole && memcmp(text, "fau", 3) == 0 && text[3] == UNSET);
    scf_fault_text(&fault, NULL, 0, &needed);
    IS(needed == whole);
}

int main(void) {
    filters();
    paths();
    stacks();
    texts();
    profiles();
    readings();
    trap_data();
    comparisons();
    stacks_beside();
    profiles_beside();
    call_by_call();
    wrong_arguments();
    asks_of_each();
    compares_each();
    answers();
    answers_by_one_of_several();
    wrong_tables();
    fault_texts();
    printf("%ld checks\n", checks);
    return 0;
}
