/* Each call of scf.hpp once, and what refuses it. The answers are those of linux/seccomp.h and of the OCI
 * specification. C++20, without exceptions. */
#include "parties.h"
#include <scf.hpp>

static const scf::profile own{profile};
static const struct scf_table names[] = {
    scf::table_of(scf::architecture::x86_64, scf::view(std::string_view(table)))};

static void filters() {
    const auto all = scf::view(allow), none = scf::view(deny);
    IS(scf::check(all) && *scf::check(all) == 1);
    const auto cut = scf::check(scf::view(std::span(allow, 3)));
    IS(!cut && cut.status == scf::status::refused && is_fault(&cut.fault, SCF_SOURCE_FILTER, SCF_KIND_TRUNCATED, 0));
    IS(scf::run(all, call_of(0))->answer == RET_ALLOW && scf::run(all, call_of(0))->steps == 1);
    const auto traced = scf::trace(scf::view(positive), call_of(1));
    IS(traced->answer == RET_ALLOW && traced->indices == (std::vector<std::size_t>{0, 1, 2}));
    const scf_bytes stack[] = {none, all};
    const auto decided = scf::decide(stack, call_of(0));
    IS(decided->answer == RET_EPERM && decided->has_filter == 1 && decided->filter == 0 && decided->index == 0);
    IS(scf::decide({}, call_of(0))->answer == RET_ALLOW && scf::decide({}, call_of(0))->has_filter == 0);
    IS(*scf::list(all) == "ret #0x7fff0000\n");
    IS(*scf::assemble("ret #0x7fff0000\n") == std::vector<std::uint8_t>(allow, allow + sizeof allow));
    const auto wrong = scf::assemble("\nrat\n");
    IS(wrong->empty() && is_fault(&wrong.fault, SCF_SOURCE_TEXT, SCF_KIND_MNEMONIC, 2));
    IS(scf::load(scf::view(std::span(allow, 3))) < 0);
}

static void profiles() {
    const auto asked = scf::ask(own, names, call_of(1));
    IS(asked->answer == RET_ALLOW && asked->reason == scf::reason::by_entry && asked->entry == 0);
    IS(asked->left_out.skipped == 1);
    IS(scf::ask(own, names, call_of(0))->reason == scf::reason::by_default);
    const struct scf_table stubbed[] = {scf::with_stub(names[0], 1)};
    const auto stub = scf::ask({profile, scf::reading::runc}, stubbed, call_of(1));
    IS(stub->answer == RET_ENOSYS && stub->reason == scf::reason::by_stub);
    const auto compiled = scf::compile(own, names);
    const scf_bytes stack[] = {scf::view(compiled->filter)}, other[] = {scf::view(allow)};
    const auto same = scf::compare(stack, own, names);
    IS(same->verdict() == scf::verdict::holds && same->report == "same\nskipped absent\n");
    IS(same->each.size() == 1 && same->right.skipped == 1);
    const auto native = scf::architecture::x86_64;
    const auto more =
        scf::compare(other, own, names, {.scope = scf::one_call(native, 0), .relation = scf::relation::no_more});
    IS(more->verdict() == scf::verdict::fails && more->finding.call.nr == 0);
    IS(more->finding.left == RET_ALLOW && more->finding.right == RET_EPERM);
    IS(scf::compare(other, own, names, {.limit = 0})->verdict() == scf::verdict::unfinished);
    IS(scf::compare(stack, other, {}, {.relation = scf::relation::no_more})->verdict() == scf::verdict::holds);
    const auto missing = scf::compare(scf::filters{}, scf::profile{"{}"}, names);
    IS(missing.fault.kind == SCF_KIND_MISSING && scf::text(missing.fault).substr(0, 22) == "fault profile Missing\n");
    const auto calls = scf::compare(other, own, names, {.scope = scf::each_call});
    IS(calls->each.size() == 2 && calls->each[0].finding.verdict == SCF_FAILS && calls->each[1].nr == 1);
    const auto listed = scf::answers(scf::side(other), {});
    IS(listed->is_finished && listed->regions.size() == 1 && listed->regions[0].answer == RET_ALLOW);
    IS(listed->facts.empty());
}

static void architectures() {
    const scf::profile both{"{\"defaultAction\": \"SCMP_ACT_ERRNO\", \"architectures\": [\"SCMP_ARCH_X86_64\", "
                            "\"SCMP_ARCH_X86\"], \"syscalls\": [{\"names\": [\"read\"], \"action\": "
                            "\"SCMP_ACT_ALLOW\"}]}"};
    const struct scf_table tables[] = {scf::table_of(scf::architecture::x86_64),
                                       scf::table_of(scf::architecture::x86, scf::view(std::string_view("read 3\n")))};
    scf_call read = call_of(3);
    read.arch = SCF_AUDIT_X86;
    IS(scf::ask(both, tables, read)->answer == RET_ALLOW && scf::ask(both, tables, call_of(3))->answer == RET_EPERM);
    const auto compiled = scf::compile(both, tables);
    const scf_bytes stack[] = {scf::view(compiled->filter)}, other[] = {scf::view(deny)};
    IS(scf::compare(stack, both, tables)->verdict() == scf::verdict::holds);
    const auto each = scf::compare(other, both, tables, {.scope = scf::each_architecture});
    IS(each->verdict() == scf::verdict::fails && each->each.size() == 2);
    IS(scf::is_proved(stack, both, tables) && !scf::is_proved(other, both, tables) && !scf::is_proved(stack, both, {}));
    /* i386, which isn't listed, is open; an architecture that is listed has no table */
    const scf::profile one{"{\"defaultAction\": \"SCMP_ACT_ALLOW\"}"};
    const scf_bytes open[] = {scf::view(allow)};
    IS(scf::compare(open, one, names, {.scope = scf::each_architecture})->verdict() == scf::verdict::holds);
    IS(!scf::is_proved(open, one, names));
    const auto native = scf::compile(both, {tables, 1});
    const scf_bytes cut[] = {scf::view(native->filter)};
    IS(native->left_out.not_looked_at == 1 && !scf::is_proved(cut, both, {tables, 1}));
    const auto all = scf::own_tables();
    IS(all.size() == SCF_ARCHITECTURES && scf::compile(both, all).fault.kind == SCF_KIND_NOT_LISTED);
    IS(scf::compile({both.text, scf::reading::strict, true}, all)->left_out.not_looked_at == 0);
    IS(scf::compile(both, {}).status == scf::status::wrong_argument);
    IS(scf::table(static_cast<scf::architecture>(99)).at == nullptr);
}

int main() {
    filters();
    profiles();
    architectures();
    printf("%ld checks\n", checks);
}
