/* libscf: checks, runs, lists, compiles and compares seccomp filters, in memory. Its answers are proved, but for the
 * four calls at the end of this header.
 *
 *     cc program.c $(pkg-config --cflags --libs scf)
 *
 * Each call is a function of its arguments. The library keeps nothing between calls, opens no file, makes no system
 * call but those of malloc and scf_load, and never ends the process.
 *
 * Memory. The caller owns every byte, before and after a call. The library reads what a pointer to const leads to and
 * writes what another one leads to, during the call alone. A pointer may be NULL only if it is that of a list and the
 * list's length is 0. What a call writes must not overlap anything else that it is handed.
 *
 * Results. Every result is set however a call ends. With a status other than SCF_OK nothing of a list or a text is
 * written, all else is 0, and the fault says why; of SCF_WRONG_ARGUMENT it is 0, too. Texts, filters and other lists
 * are handed out as snprintf does: at most `room` elements of the front are written, and *needed is the whole length;
 * if that is more than `room`, repeat the call with more. No 0 is appended.
 *
 * Threads, signals, fork. Calls may run side by side in any number of threads, also on the same inputs. As for malloc,
 * none but scf_load may be made in a signal handler, or in the child of a fork of a process with threads before it runs
 * another program. A call takes less than 256 KiB of stack.
 *
 * Limits. A filter has at most 4096 instructions, a profile 4194304 bytes and 4096 rules of an architecture, a stack
 * of filters 32768 instructions, where each older filter counts 4 more.
 *
 * Numbers of this interface never change their meaning, and structs never change their layout. Statuses, kinds of
 * faults and other numbers may be added: take an unknown status for SCF_REFUSED.
 */
#ifndef SCF_H
#define SCF_H

#include <stddef.h>
#include <stdint.h>

#ifdef __cplusplus
extern "C" {
#endif

/* Marks for compilers that have them: a result that must be looked at, pointers that must not be NULL, and the sizes of
 * what is read and written. */
#if defined(__GNUC__)
#define SCF_RESULT __attribute__((warn_unused_result))
#define SCF_NONNULL(...) __attribute__((nonnull(__VA_ARGS__)))
#else
#define SCF_RESULT
#define SCF_NONNULL(...)
#endif
#if defined(__GNUC__) && !defined(__clang__) && __GNUC__ >= 10
#define SCF_READS(pointer, size) __attribute__((access(read_only, pointer, size)))
#define SCF_WRITES(pointer, size) __attribute__((access(write_only, pointer, size)))
#else
#define SCF_READS(pointer, size)
#define SCF_WRITES(pointer, size)
#endif

/* The version of this header. A library fits if its first number is the same and it is no older: if scf_version() is at
 * least SCF_VERSION. The dynamic linker heeds this: libscf.so.0 has the first number, and each symbol the version that
 * brought it. */
#define SCF_VERSION_MAJOR 0
#define SCF_VERSION_MINOR 1
#define SCF_VERSION_PATCH 0
#define SCF_VERSION (SCF_VERSION_MAJOR << 16 | SCF_VERSION_MINOR << 8 | SCF_VERSION_PATCH)

/* The version of the library, as SCF_VERSION. */
uint32_t scf_version(void);

/* How a call ended. A verdict is no status: a comparison that fails ends with SCF_OK. */
enum scf_status {
    SCF_OK = 0,
    SCF_REFUSED = 1,        /* an input isn't accepted */
    SCF_WRONG_ARGUMENT = 2, /* a number has no meaning, or there is no table, one twice, or no call: no fault says it */
    SCF_NO_MEMORY = 3       /* malloc failed; nothing stays allocated, and the call may be repeated */
};

/* ---- faults: docs/FAULTS.md explains each, by its printed line `fault SOURCE KIND NUMBER ..` */

struct scf_fault {
    uint32_t source;     /* enum scf_source; 0: there is no fault */
    uint32_t kind;       /* enum scf_kind */
    uint64_t numbers[3]; /* those of the printed line, in its order, then 0 */
    uint64_t reserved[4];
};

/* Which input is refused, or what memory ran out for. */
enum scf_source {
    SCF_SOURCE_FILTER = 1,
    SCF_SOURCE_BESIDE = 2, /* an input of the right side, if the left one is of the same kind */
    SCF_SOURCE_TEXT = 3,
    SCF_SOURCE_TABLE = 4,
    SCF_SOURCE_PROFILE = 5,
    SCF_SOURCE_COMPILE = 6,
    SCF_SOURCE_STACK = 7,
    SCF_SOURCE_COMPARE = 8
};

enum scf_kind {
    SCF_KIND_MEMORY = 1,
    SCF_KIND_READ = 2, /* never comes: bytes in memory can be read */
    /* filters: the index of an instruction, and of SCF_KIND_UNSET the scratch word, too */
    SCF_KIND_TRUNCATED = 3, /* the offset of a byte */
    SCF_KIND_TOO_LONG = 4, /* also of texts (the line), tables and profiles */
    SCF_KIND_EMPTY = 5,
    SCF_KIND_CODE = 6,
    SCF_KIND_LOAD = 7,
    SCF_KIND_SCRATCH = 8,
    SCF_KIND_DIVISOR = 9,
    SCF_KIND_SHIFT = 10,
    SCF_KIND_JUMP = 11,
    SCF_KIND_LAST_NOT_RETURN = 12,
    SCF_KIND_UNSET = 13,
    /* texts: the line, from 1 */
    SCF_KIND_NOT_ASCII = 14,
    SCF_KIND_MNEMONIC = 15,
    SCF_KIND_OPERAND = 16,
    SCF_KIND_NUMBER_RANGE = 17,
    SCF_KIND_LABEL = 18,
    SCF_KIND_JUMP_TOO_FAR = 19,
    /* tables: the line, from 1 */
    SCF_KIND_FORM = 20,
    SCF_KIND_NAME = 21,
    SCF_KIND_NUMBER = 22,
    SCF_KIND_REPEATED = 23,
    /* profiles: the index of the entry in `syscalls`, or SCF_NO_ENTRY */
    SCF_KIND_JSON = 24, /* without a number */
    SCF_KIND_MISSING = 25,
    SCF_KIND_KIND = 26,
    SCF_KIND_ACTION = 27,
    SCF_KIND_OPERATOR = 28,
    SCF_KIND_EMPTY_NAMES = 29,
    SCF_KIND_INDEX = 30,
    SCF_KIND_REPEATED_INDEX = 31,
    SCF_KIND_ERRNO = 32,
    SCF_KIND_ERRNO_RANGE = 33,
    SCF_KIND_NO_X8664 = 34,
    SCF_KIND_ENGINE_FORM = 35,
    SCF_KIND_TOO_MANY = 36, /* rules; of stacks the total of instructions */
    SCF_KIND_CONFLICT = 37, /* the syscall number, and two entries */
    /* the compiler */
    SCF_KIND_TOO_LARGE = 38,
    /* profiles: the index of a table whose architecture isn't among `architectures` */
    SCF_KIND_NOT_LISTED = 39
};

#define SCF_NO_ENTRY UINT64_MAX

/* ---- inputs */

struct scf_bytes {
    const uint8_t *at;
    size_t len;
};

/* What a filter sees of a syscall: struct seccomp_data of linux/seccomp.h. */
struct scf_call {
    uint32_t nr;
    uint32_t arch; /* SCF_AUDIT_.., below */
    uint64_t ip;
    uint64_t args[6];
};

/* The architectures of calls: AUDIT_ARCH_.. of linux/audit.h. A call of x32 has that of x86-64, and SCF_X32_BIT in its
 * number. */
#define SCF_AUDIT_X86_64 0xc000003eu
#define SCF_AUDIT_X86 0x40000003u
#define SCF_AUDIT_X32 SCF_AUDIT_X86_64
#define SCF_AUDIT_AARCH64 0xc00000b7u
#define SCF_AUDIT_ARM 0x40000028u
#define SCF_AUDIT_RISCV64 0xc00000f3u
#define SCF_AUDIT_PPC64LE 0xc0000015u
#define SCF_AUDIT_MIPSEL 0x40000008u
#define SCF_AUDIT_MIPSEL64 0xc0000008u
#define SCF_AUDIT_MIPSEL64N32 0xe0000008u
#define SCF_AUDIT_LOONGARCH64 0xc0000102u
#define SCF_X32_BIT 0x40000000u

/* ---- one filter: its bytes are the kernel's struct sock_filter, 8 to an instruction, little-endian */

/* Checks that the kernel accepts the filter; *count is its number of instructions. */
SCF_RESULT SCF_NONNULL(3, 4) SCF_READS(1, 2)
uint32_t scf_check(const uint8_t *filter, size_t filter_len, size_t *count, struct scf_fault *fault);

/* Runs the filter on a call: its answer (SECCOMP_RET_..), and how many instructions it executed. */
SCF_RESULT SCF_NONNULL(3, 4, 5, 6) SCF_READS(1, 2)
uint32_t scf_run(const uint8_t *filter, size_t filter_len, const struct scf_call *call, uint32_t *answer,
                 uint32_t *steps, struct scf_fault *fault);

/* Runs the filter on a call, and hands out the indices of the instructions that it executed. */
SCF_RESULT SCF_NONNULL(3, 4, 7, 8) SCF_READS(1, 2) SCF_WRITES(5, 6)
uint32_t scf_trace(const uint8_t *filter, size_t filter_len, const struct scf_call *call, uint32_t *answer,
                   size_t *path, size_t room, size_t *needed, struct scf_fault *fault);

/* Hands out the listing of the filter, as `scf dis` prints it. The filter isn't checked. */
SCF_RESULT SCF_NONNULL(5, 6) SCF_READS(1, 2) SCF_WRITES(3, 4)
uint32_t scf_list(const uint8_t *filter, size_t filter_len, uint8_t *text, size_t room, size_t *needed,
                  struct scf_fault *fault);

/* Hands out the filter that a text spells, in the language of `scf asm`. The filter isn't checked. */
SCF_RESULT SCF_NONNULL(5, 6) SCF_READS(1, 2) SCF_WRITES(3, 4)
uint32_t scf_assemble(const uint8_t *text, size_t text_len, uint8_t *filter, size_t room, size_t *needed,
                      struct scf_fault *fault);

/* What a stack of filters answers to a call, and the instruction that gives the answer. */
struct scf_decision {
    uint32_t answer;     /* SECCOMP_RET_.. of linux/seccomp.h */
    uint32_t has_filter; /* 1, or 0 if there is no filter: then the call is allowed */
    uint64_t filter;     /* the index of the filter that answers, 0 the oldest */
    uint64_t index;      /* the index of its instruction */
    uint64_t reserved[4];
};

/* The answer of a stack of filters to a call: all run, and the one that takes precedence answers, of several with the
 * same action the newest (seccomp(2)). The oldest filter comes first. */
SCF_RESULT SCF_NONNULL(3, 4, 5) SCF_READS(1, 2)
uint32_t scf_decide(const struct scf_bytes *filters, size_t filters_len, const struct scf_call *call,
                    struct scf_decision *decision, struct scf_fault *fault);

/* ---- syscall tables */

/* What numbers the syscalls of an architecture, and the architecture of a question. */
enum scf_architecture {
    SCF_TABLE_X86_64 = 1,
    SCF_TABLE_X86 = 2, /* i386 */
    SCF_TABLE_X32 = 3,
    SCF_TABLE_AARCH64 = 4,
    SCF_TABLE_ARM = 5,
    SCF_TABLE_RISCV64 = 6,
    SCF_TABLE_PPC64LE = 7,
    SCF_TABLE_MIPSEL = 8,
    SCF_TABLE_MIPSEL64 = 9,
    SCF_TABLE_MIPSEL64N32 = 10,
    SCF_TABLE_LOONGARCH64 = 11
};

/* How many there are: their numbers are 1 and the following. */
enum { SCF_ARCHITECTURES = SCF_TABLE_LOONGARCH64 };

/* A syscall table gives the names of an architecture's syscalls their numbers; x32's has them without SCF_X32_BIT. runc
 * puts a stub before the filter that answers the numbers from `stub` on by ENOSYS (0x50026), whatever the profile says.
 *
 * A call takes one table or more, at most one for an architecture, in any order. Syscalls of an architecture that has
 * none are answered by KILL_PROCESS, also if the profile lists it: struct scf_left_out says how many it lists. */
struct scf_table {
    struct scf_bytes bytes;
    uint32_t architecture; /* enum scf_architecture */
    uint32_t has_stub;     /* 1 or 0 */
    uint32_t stub;         /* as a call has it: of x32 with SCF_X32_BIT; else not looked at */
    uint32_t reserved;     /* 0 */
};

/* ---- a profile: OCI's seccomp object in JSON, or a config with one */

/* How a profile is read: by its words, or as a runtime reads it that hands it to libseccomp. Engines write profiles
 * that only their runtime takes. SCF_SANDBOX is by the words, but errnoRet beside SCMP_ACT_TRAP is its data. */
enum scf_reading { SCF_STRICT = 0, SCF_RUNC = 1, SCF_CRUN = 2, SCF_SANDBOX = 3 };

/* Without this flag a table of an architecture that the profile doesn't list is refused (SCF_KIND_NOT_LISTED); with it
 * such tables are skipped. */
#define SCF_SKIP_UNLISTED 1u

struct scf_profile {
    struct scf_bytes text;
    uint32_t reading;     /* enum scf_reading */
    uint32_t flags;       /* SCF_SKIP_UNLISTED or 0 */
    uint64_t reserved[2]; /* 0 */
};

/* How much of a profile isn't judged. */
struct scf_left_out {
    uint64_t not_looked_at; /* architectures that it lists without a table here, each occurrence */
    uint64_t skipped;       /* names that no table has, each occurrence */
    uint64_t reserved[4];
};

/* Hands out a filter that answers every call as the profile does. */
SCF_RESULT SCF_NONNULL(1, 6, 7, 8) SCF_READS(2, 3) SCF_WRITES(4, 5)
uint32_t scf_compile(const struct scf_profile *profile, const struct scf_table *tables, size_t tables_len,
                     uint8_t *filter, size_t room, size_t *needed, struct scf_left_out *left_out,
                     struct scf_fault *fault);

enum scf_reason {
    SCF_NO_REASON = 0, /* the call didn't end with SCF_OK */
    SCF_BY_DEFAULT = 1,
    SCF_BY_ENTRY = 2,
    SCF_FOREIGN = 3, /* a syscall of an architecture without a table: KILL_PROCESS */
    SCF_BY_STUB = 4
};

struct scf_answer {
    uint32_t answer; /* SECCOMP_RET_.. of linux/seccomp.h */
    uint32_t reason; /* enum scf_reason */
    uint32_t entry;  /* of SCF_BY_ENTRY: its index in `syscalls` */
    uint32_t unused;
    struct scf_left_out left_out;
};

/* The profile's answer to a call, and why. */
SCF_RESULT SCF_NONNULL(1, 4, 5, 6) SCF_READS(2, 3)
uint32_t scf_ask(const struct scf_profile *profile, const struct scf_table *tables, size_t tables_len,
                 const struct scf_call *call, struct scf_answer *answer, struct scf_fault *fault);

/* ---- comparisons */

/* What is compared: a profile or filters. Set what isn't used to 0. */
struct scf_side {
    uint32_t kind;                   /* enum scf_kind_of_side */
    uint32_t reserved;               /* 0 */
    const struct scf_bytes *filters; /* of SCF_FILTERS: a stack, the oldest first */
    size_t filters_len;
    struct scf_profile profile; /* of SCF_PROFILE */
};

enum scf_kind_of_side { SCF_PROFILE = 1, SCF_FILTERS = 2 };

struct scf_question {
    uint32_t scope;        /* enum scf_scope */
    uint32_t relation;     /* enum scf_relation */
    uint32_t architecture; /* of SCF_NUMBERS; else not looked at, nor are these: */
    uint32_t first;        /* the first number, as a call has it: of x32 with SCF_X32_BIT */
    uint32_t last;         /* the last one */
    uint32_t unused;       /* 0 */
    uint64_t limit;        /* the most steps of a comparison, as SCF_LIMIT */
    uint64_t total_limit;  /* the most steps of all together; UINT64_MAX for no limit */
    uint64_t reserved[2];  /* 0 */
};

/* The calls that are compared; a finding says nothing of others. One number is a range. A range without a number that
 * the architecture's calls can have is SCF_WRONG_ARGUMENT, and so are SCF_EACH_ARCHITECTURE without a table and
 * SCF_EACH_CALL where no table has a syscall. SCF_EACH_ARCHITECTURE leaves out what the only profile doesn't list, and
 * what it lists without a table (not_looked_at); SCF_EACH_CALL also the numbers that no table names. Beside two
 * profiles all tables count.
 *
 * So two questions prove that filters are a profile's: SCF_SAME over SCF_EACH_ARCHITECTURE, where not_looked_at has to
 * be 0; and SCF_NO_MORE over SCF_NUMBERS of x86-64 (0 to 0x3fffffff), i386 (0 to 0xfffffffe) and x32 (0x40000000 to
 * 0xfffffffe), which any program of x86-64 can make, whatever is listed. The number -1 is no syscall: libseccomp's
 * filters give it the default. */
enum scf_scope {
    SCF_ALL_CALLS = 0,         /* of all architectures, also of those that no table is for */
    SCF_NUMBERS = 1,           /* of an architecture, with a number of a range */
    SCF_EACH_ARCHITECTURE = 2, /* of each architecture that has a table, one after another */
    SCF_EACH_CALL = 3          /* of each syscall of each table, one after another */
};

/* What is to hold of the left and the right side's answer to each of them. Denied < delegated < allowed. */
enum scf_relation {
    SCF_SAME = 0,    /* they are equal, all 32 bits */
    SCF_NO_MORE = 1, /* the left side's is no more permissive */
    SCF_NO_LESS = 2, /* the left side's is no less permissive */
    SCF_SAME_DISPOSITION = 3
};

/* What scf takes without --limit. */
#define SCF_LIMIT 1000000

enum scf_verdict {
    SCF_NO_VERDICT = 0, /* nothing was compared: the call didn't end with SCF_OK */
    SCF_HOLDS = 1,      /* proved for every call of the scope */
    SCF_FAILS = 2,      /* `call` shows it, with both answers */
    SCF_UNDECIDED = 3,  /* not known; a run of a filter can end at `at` */
    SCF_UNFINISHED = 4  /* a limit was reached */
};

struct scf_finding {
    uint32_t verdict; /* enum scf_verdict */
    uint32_t left;    /* of SCF_FAILS: the answer of the left side */
    uint32_t right;   /* of SCF_FAILS: the answer of the right side */
    uint32_t side;    /* of SCF_UNDECIDED: 1 the left side, 2 the right side */
    uint64_t at;      /* of SCF_UNDECIDED: the index of an instruction where a run of that side can end, or 0 */
    struct scf_call call;
};

/* The finding on all: of several the first that fails, else the first that doesn't hold. */
struct scf_comparison {
    struct scf_finding finding;
    struct scf_left_out left, right; /* of a profile */
};

/* That on the calls of one architecture or syscall. */
struct scf_records_finding {
    uint32_t architecture; /* enum scf_architecture; of SCF_ALL_CALLS 0 */
    uint32_t nr;           /* of SCF_EACH_CALL, as a call has it */
    struct scf_finding finding;
    uint64_t reserved[4];
};

/* Compares the left side with the right one. `each` is the finding on each architecture or syscall, in order. The
 * tables are those of a profile on either side; without one there may be none. The text is what `scf compare` prints of
 * the finding on all, and of what is left out of the right side; it calls the left side "filter". */
SCF_RESULT SCF_NONNULL(1, 2, 5, 6, 9, 12, 13) SCF_READS(3, 4) SCF_WRITES(7, 8) SCF_WRITES(10, 11)
uint32_t scf_compare(const struct scf_side *left, const struct scf_side *right, const struct scf_table *tables,
                     size_t tables_len, const struct scf_question *question, struct scf_comparison *comparison,
                     struct scf_records_finding *each, size_t each_room, size_t *each_needed, uint8_t *text,
                     size_t room, size_t *needed, struct scf_fault *fault);

/* ---- answers: all that a side answers */

/* What the walk over a side comes to. */
struct scf_listing {
    uint32_t is_finished; /* 1, or 0 if the limit was reached: then no region is listed */
    uint32_t unused;
    struct scf_left_out left_out;
};

/* Calls that a side answers from one place, and alike if the answer is known. Each call of the scope lies in a region.
 * An exact one has no other calls than those that it is about, and no call of another exact one; in a region that isn't
 * exact a test wasn't decided, so that some of its calls may lie in others. */
struct scf_region {
    uint32_t answer;      /* SECCOMP_RET_.., if it is known */
    uint32_t is_known;
    uint32_t is_exact;
    uint32_t has_example;
    uint32_t reason;      /* of a profile: enum scf_reason, with the entry */
    uint32_t entry;
    uint64_t filter;      /* of filters, if the answer is known: the index of the one that answers, 0 the oldest */
    uint64_t index;       /* that of its instruction; if the answer isn't known, of one where a run can end */
    uint64_t fact_count;  /* how many of the facts are about it: they stand in the order of the regions */
    struct scf_call example;
    uint64_t reserved[4];
};

/* What the words of a region's calls are; of a word without a fact nothing is known. The words are those of struct
 * seccomp_data, little-endian: 0 nr, 1 arch, 2 and 3 ip, 4 and 5 the first argument, and so on. */
struct scf_fact {
    uint32_t word;
    uint32_t kind; /* enum scf_fact_kind */
    uint32_t low;  /* of SCF_WITHIN the least value, else a mask */
    uint32_t high; /* of SCF_WITHIN the greatest value, else the value under the mask */
};

enum scf_fact_kind {
    SCF_WITHIN = 1,   /* the word lies in one of these intervals */
    SCF_HAS_BITS = 2, /* (word & mask) == value */
    SCF_LACKS_BITS = 3 /* (word & mask) != value */
};

/* Hands out what a side answers to each call of the question's scope, in at most its total_limit of steps. A relation
 * other than SCF_SAME is SCF_WRONG_ARGUMENT. */
SCF_RESULT SCF_NONNULL(1, 4, 5, 8, 11, 12) SCF_READS(2, 3) SCF_WRITES(6, 7) SCF_WRITES(9, 10)
uint32_t scf_answers(const struct scf_side *side, const struct scf_table *tables, size_t tables_len,
                     const struct scf_question *question, struct scf_listing *listing, struct scf_region *regions,
                     size_t regions_room, size_t *regions_needed, struct scf_fact *facts, size_t facts_room,
                     size_t *facts_needed, struct scf_fault *fault);

/* ---- beside the proved calls: these are written in C, and tested */

/* The syscall table that scf has of an architecture (enum scf_architecture): *size bytes, which stay as they are. Their
 * first line says of which kernel they are. NULL and 0 for a number that has no meaning. */
SCF_RESULT SCF_NONNULL(2)
const uint8_t *scf_table(uint32_t architecture, size_t *size);

/* Hands out what a fault says: the line that scf prints of it, and a line of what that means, with its numbers; nothing
 * for a fault of zeros. */
SCF_NONNULL(1)
void scf_fault_text(const struct scf_fault *fault, char *text, size_t room, size_t *needed);

/* Hands out a call in words, by the names of scf's own tables: `socket(0x2, 0x1, 0x0, 0x0, 0x0, 0x0) of x86-64`. */
SCF_NONNULL(1, 4)
void scf_call_text(const struct scf_call *call, char *text, size_t room, size_t *needed);

/* Loads a filter for the calling thread, by seccomp(2); the kernel checks it. `flags` are SECCOMP_FILTER_FLAG_.. of
 * linux/seccomp.h. no_new_privs is set before, and stays set if the filter isn't loaded; with SCF_KEEP_PRIVILEGES it is
 * left as it is, and the kernel asks for it or for CAP_SYS_ADMIN.
 *
 * Returns 0, or with SECCOMP_FILTER_FLAG_NEW_LISTENER the listener's descriptor. If SECCOMP_FILTER_FLAG_TSYNC can't
 * reach a thread, no thread gets the filter, and the result is that thread's id, above 0. A negative result is an
 * error of errno.h, and nothing is loaded: -EINVAL for a length that isn't that of 1 to 4096 instructions, and what
 * the kernel says. */
SCF_RESULT SCF_READS(1, 2)
int scf_load(const uint8_t *filter, size_t filter_len, uint32_t flags);

#define SCF_KEEP_PRIVILEGES 0x80000000u

#undef SCF_RESULT
#undef SCF_NONNULL
#undef SCF_READS
#undef SCF_WRITES

#ifdef __cplusplus
}
#endif
#endif
