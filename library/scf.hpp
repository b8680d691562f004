/* libscf for C++20: the calls of scf.h with spans, views and enum classes. Everything here is inline, and needs no
 * exceptions; what is handed out owns its memory. scf.h has the rules. */
#ifndef SCF_HPP
#define SCF_HPP

#include <cstdint>
#include <scf.h>
#include <span>
#include <string>
#include <string_view>
#include <vector>

namespace scf {

enum class status : std::uint32_t { ok, refused, wrong_argument, no_memory };
enum class architecture : std::uint32_t {
    x86_64 = 1,
    x86,
    x32,
    aarch64,
    arm,
    riscv64,
    ppc64le,
    mipsel,
    mipsel64,
    mipsel64n32,
    loongarch64,
};
enum class relation : std::uint32_t { same, no_more, no_less, same_disposition };
enum class verdict : std::uint32_t { none, holds, fails, undecided, unfinished };
enum class reason : std::uint32_t { none, by_default, by_entry, foreign, by_stub };
enum class reading : std::uint32_t { strict, runc, crun, sandbox };

/* What a call hands out, or why not. Like std::optional it is true if there is a value. */
template <class T> struct result {
    scf::status status = scf::status::refused;
    scf_fault fault{};
    T value{};

    explicit operator bool() const { return status == scf::status::ok; }
    const T &operator*() const { return value; }
    const T *operator->() const { return &value; }
};

/* Bytes, for a list of filters and for tables: not copied, so they have to stay. */
inline scf_bytes view(std::span<const std::uint8_t> bytes) { return {bytes.data(), bytes.size()}; }
inline scf_bytes view(std::string_view text) {
    return {reinterpret_cast<const std::uint8_t *>(text.data()), text.size()};
}

using filters = std::span<const scf_bytes>; /* a stack, the oldest first */
using tables = std::span<const struct scf_table>;

/* An OCI profile, JSON, and how it is read. */
struct profile {
    std::string_view text;
    scf::reading reading = scf::reading::strict;
    bool skip_unlisted = false; /* skips the tables of architectures that it doesn't list; else they are refused */
};

/* scf's own table of an architecture. Its first line says of which kernel it is. */
inline scf_bytes table(architecture of) {
    std::size_t size;
    const std::uint8_t *at = ::scf_table(static_cast<std::uint32_t>(of), &size);
    return {at, size};
}

/* That table, or another one, as calls take it: with a first number, runc's stub answers from there on. */
inline struct scf_table table_of(architecture of, scf_bytes bytes) {
    return {bytes, static_cast<std::uint32_t>(of), 0, 0, 0};
}
inline struct scf_table table_of(architecture of) { return table_of(of, table(of)); }
inline struct scf_table with_stub(struct scf_table of, std::uint32_t first) {
    of.has_stub = 1, of.stub = first;
    return of;
}

/* scf's own tables of all architectures. */
inline std::vector<struct scf_table> own_tables() {
    std::vector<struct scf_table> all;
    for (std::uint32_t number = 1; number <= SCF_ARCHITECTURES; number++)
        all.push_back(table_of(static_cast<architecture>(number)));
    return all;
}

namespace detail {

template <class T, class Call> result<T> make(Call call) {
    result<T> made;
    made.status = static_cast<scf::status>(call(made.value, made.fault));
    return made;
}

/* The list or text that a call hands out: it gets an address and the room there, and the place of the length needed. */
template <class T, class Call> std::uint32_t output(T &list, std::size_t room, Call call) {
    for (;;) {
        std::size_t needed;
        list.resize(room);
        const std::uint32_t status = call(list.data(), list.size(), &needed);
        list.resize(needed < room ? needed : room);
        if (needed <= room) return status;
        room = needed;
    }
}

inline std::uint8_t *characters(char *at) { return reinterpret_cast<std::uint8_t *>(at); }

} // namespace detail

/* What a fault says: the line that scf prints of it, and a line of what that means. */
inline std::string text(const scf_fault &fault) {
    std::string text;
    detail::output(text, 512, [&](auto *at, auto room, auto *needed) {
        scf_fault_text(&fault, at, room, needed);
        return 0u;
    });
    return text;
}

/* A call in words, by the names of scf's own tables. */
inline std::string text(const scf_call &call) {
    std::string text;
    detail::output(text, 512, [&](auto *at, auto room, auto *needed) {
        scf_call_text(&call, at, room, needed);
        return 0u;
    });
    return text;
}

/* ---- filters */

/* The number of instructions of a filter that the kernel accepts. */
inline result<std::size_t> check(scf_bytes filter) {
    return detail::make<std::size_t>(
        [&](auto &count, auto &fault) { return scf_check(filter.at, filter.len, &count, &fault); });
}

struct execution {
    std::uint32_t answer, steps;
};

inline result<execution> run(scf_bytes filter, const scf_call &call) {
    return detail::make<execution>([&](auto &made, auto &fault) {
        return scf_run(filter.at, filter.len, &call, &made.answer, &made.steps, &fault);
    });
}

struct path {
    std::uint32_t answer;
    std::vector<std::size_t> indices;
};

inline result<path> trace(scf_bytes filter, const scf_call &call) {
    return detail::make<path>([&](auto &made, auto &fault) {
        return detail::output(made.indices, 4096, [&](auto *at, auto room, auto *needed) {
            return scf_trace(filter.at, filter.len, &call, &made.answer, at, room, needed, &fault);
        });
    });
}

/* The listing of a filter, which isn't checked. */
inline result<std::string> list(scf_bytes filter) {
    return detail::make<std::string>([&](auto &text, auto &fault) {
        return detail::output(text, 1 << 16, [&](auto *at, auto room, auto *needed) {
            return scf_list(filter.at, filter.len, detail::characters(at), room, needed, &fault);
        });
    });
}

/* The filter that a text spells. It isn't checked. */
inline result<std::vector<std::uint8_t>> assemble(std::string_view text) {
    return detail::make<std::vector<std::uint8_t>>([&](auto &filter, auto &fault) {
        return detail::output(filter, 1 << 15, [&](auto *at, auto room, auto *needed) {
            return scf_assemble(view(text).at, text.size(), at, room, needed, &fault);
        });
    });
}

/* The answer of a stack of filters to a call, and the instruction that gives it. */
inline result<scf_decision> decide(filters stack, const scf_call &call) {
    return detail::make<scf_decision>(
        [&](auto &made, auto &fault) { return scf_decide(stack.data(), stack.size(), &call, &made, &fault); });
}

/* Loads a filter: scf_load, by seccomp(2). */
[[nodiscard]] inline int load(scf_bytes filter, std::uint32_t flags = 0) {
    return scf_load(filter.at, filter.len, flags);
}

/* ---- profiles */

namespace detail {

inline scf_profile raw(const profile &of) {
    return {view(of.text), static_cast<std::uint32_t>(of.reading), of.skip_unlisted ? SCF_SKIP_UNLISTED : 0, {}};
}

} // namespace detail

struct compiled {
    std::vector<std::uint8_t> filter;
    scf_left_out left_out; /* how much of the profile isn't judged */
};

/* A filter that answers every call as the profile does, and by KILL_PROCESS one of an architecture without a table. */
inline result<compiled> compile(const profile &of, tables all) {
    const scf_profile own = detail::raw(of);
    return detail::make<compiled>([&](auto &made, auto &fault) {
        return detail::output(made.filter, 1 << 15, [&](auto *at, auto room, auto *needed) {
            return scf_compile(&own, all.data(), all.size(), at, room, needed, &made.left_out, &fault);
        });
    });
}

struct profile_answer {
    std::uint32_t answer;
    scf::reason reason;
    std::uint32_t entry; /* of by_entry: its index in `syscalls` */
    scf_left_out left_out;
};

/* The profile's answer to a call, and why. */
inline result<profile_answer> ask(const profile &of, tables all, const scf_call &call) {
    const scf_profile own = detail::raw(of);
    return detail::make<profile_answer>([&](auto &asked, auto &fault) {
        scf_answer raw;
        const std::uint32_t status = scf_ask(&own, all.data(), all.size(), &call, &raw, &fault);
        asked = {raw.answer, static_cast<scf::reason>(raw.reason), raw.entry, raw.left_out};
        return status;
    });
}

/* ---- comparisons */

/* What is compared: a profile or filters. */
struct side {
    scf_side raw{};

    side(const profile &of) { raw.kind = SCF_PROFILE, raw.profile = detail::raw(of); }
    side(filters stack) { raw.kind = SCF_FILTERS, raw.filters = stack.data(), raw.filters_len = stack.size(); }
    template <std::size_t size> side(const scf_bytes (&stack)[size]) : side(filters(stack)) {}
};

struct scope {
    std::uint32_t kind = SCF_ALL_CALLS, architecture = 0, first = 0, last = 0;
};

inline constexpr scope all_calls{}, each_architecture{SCF_EACH_ARCHITECTURE}, each_call{SCF_EACH_CALL};
constexpr scope numbers(architecture of, std::uint32_t first, std::uint32_t last) {
    return {SCF_NUMBERS, static_cast<std::uint32_t>(of), first, last};
}
constexpr scope one_call(architecture of, std::uint32_t nr) { return numbers(of, nr, nr); }
/* The calls that a program of x86-64 can make: of x86-64, i386 and x32, but for the number -1, which is no syscall. */
inline constexpr scope x86_64_abis[] = {numbers(architecture::x86_64, 0, SCF_X32_BIT - 1),
                                        numbers(architecture::x86, 0, 0xfffffffe),
                                        numbers(architecture::x32, SCF_X32_BIT, 0xfffffffe)};

struct question {
    scf::scope scope{};
    scf::relation relation = scf::relation::same;
    std::uint64_t limit = SCF_LIMIT, total_limit = UINT64_MAX;
};

struct comparison : scf_comparison {
    std::vector<scf_records_finding> each; /* on each architecture or syscall */
    std::string report;                    /* what `scf compare` prints of the finding on all */

    scf::verdict verdict() const { return static_cast<scf::verdict>(finding.verdict); }
};

struct listing : scf_listing {
    std::vector<scf_region> regions;
    std::vector<scf_fact> facts; /* the first `fact_count` are those of the first region, and so on */
};

namespace detail {

inline scf_question raw(const question &of) {
    const auto relation = static_cast<std::uint32_t>(of.relation);
    const scope &in = of.scope;
    return {in.kind, relation, in.architecture, in.first, in.last, 0, of.limit, of.total_limit, {}};
}

} // namespace detail

/* Compares two sides. The tables are those of a profile on either side. */
inline result<comparison> compare(const side &left, const side &right, tables all = {}, const question &of = {}) {
    const scf_question asked = detail::raw(of);
    return detail::make<comparison>([&](auto &made, auto &fault) {
        return detail::output(made.each, 8, [&](auto *each, auto each_room, auto *each_needed) {
            return detail::output(made.report, 1 << 13, [&](auto *at, auto room, auto *needed) {
                return scf_compare(&left.raw, &right.raw, all.data(), all.size(), &asked, &made, each, each_room,
                                   each_needed, detail::characters(at), room, needed, &fault);
            });
        });
    });
}

/* Whether filters are proved to be a profile's: they answer each call of the architectures that it lists as it says,
 * each of these has a table, and they allow no more than it of x86_64_abis. False, too, if an input is refused. */
inline bool is_proved(filters stack, const profile &of, tables all) {
    const auto holds = [&](const question &asked) {
        const auto compared = compare(stack, of, all, asked);
        return compared && compared->verdict() == verdict::holds && compared->right.not_looked_at == 0;
    };
    bool is_so = holds({each_architecture});
    for (const scope &abi : x86_64_abis) is_so = is_so && holds({abi, relation::no_more});
    return is_so;
}

/* All that a side answers to the calls of a scope, in at most `limit` steps. */
inline result<listing> answers(const side &of, tables all = {}, scope in = {}, std::uint64_t limit = SCF_LIMIT) {
    const scf_question asked = detail::raw({in, relation::same, limit, limit});
    return detail::make<listing>([&](auto &made, auto &fault) {
        return detail::output(made.regions, 1024, [&](auto *regions, auto regions_room, auto *regions_needed) {
            return detail::output(made.facts, 8192, [&](auto *facts, auto room, auto *needed) {
                return scf_answers(&of.raw, all.data(), all.size(), &asked, &made, regions, regions_room,
                                   regions_needed, facts, room, needed, &fault);
            });
        });
    });
}

} // namespace scf
#endif
