//! What a container runtime does with the seccomp object of its config.json: libscf reads it as the runtime does, makes
//! its filter, or takes one that was made before, proves that it answers every syscall of each architecture as the
//! profile says and allows none of the others that a program of x86-64 can make, loads it, and executes a program.
//!
//!     runtime [--reading runc|crun] [--stub NUMBER] [--filter FILE] CONFIG PROGRAM ARGUMENT..
//!
//! NUMBER is the first of x86-64 that runc's stub answers by ENOSYS. Status 1: the filter isn't what the profile says;
//! the message names a syscall. Status 3: an input is refused, or the filter can't be loaded.

use scf::{compile, load, own_tables, Compare, Profile, Reading, Relation, Scope, Table, Verdict};
use std::os::unix::process::CommandExt;
use std::process::{exit, Command};

fn end(status: i32, message: impl std::fmt::Display) -> ! {
    eprintln!("{message}");
    exit(status)
}

fn must<T, E: std::fmt::Display>(result: Result<T, E>) -> T {
    result.unwrap_or_else(|error| end(3, error))
}

/// Ends the program unless the filter is proved to be the profile's, as `is_proved` does, and names a syscall.
fn prove(filter: &[u8], profile: Profile, tables: &[Table]) {
    let filters: &[&[u8]] = &[filter];
    let same = Compare::new(filters, profile).tables(tables).scope(Scope::EachArchitecture);
    hold(same);
    for abi in Scope::X86_64_ABIS {
        hold(same.scope(abi).relation(Relation::NoMore));
    }
}

/// Ends the program unless what is asked is proved.
fn hold(question: Compare) {
    let compared = must(question.run());
    if compared.right.not_looked_at != 0 {
        end(1, "an architecture that is listed has no table");
    }
    match compared.verdict {
        Verdict::Holds => {}
        Verdict::Fails { call, left, right } => {
            end(1, format_args!("the filter answers {call} by {left}, and the profile by {right}"))
        }
        _ => end(1, "the filter isn't proved to answer as the profile"),
    }
}

fn main() {
    let mut words: Vec<String> = std::env::args().skip(1).collect();
    let (mut reading, mut filter, mut tables) = (Reading::Strict, None, own_tables());
    while words.len() > 2 && words[0].starts_with("--") {
        let (option, value) = (words.remove(0), words.remove(0));
        match (option.as_str(), value.as_str()) {
            ("--reading", "runc") => reading = Reading::Runc,
            ("--reading", "crun") => reading = Reading::Crun,
            ("--stub", number) => tables[0].stub = Some(must(number.parse())),
            ("--filter", file) => filter = Some(must(std::fs::read(file))),
            _ => end(2, format_args!("{option} {value} isn't known")),
        }
    }
    if words.len() < 2 {
        end(2, "usage: runtime [OPTION VALUE].. CONFIG PROGRAM ARGUMENT..");
    }
    let text = must(std::fs::read(&words[0]));
    let profile = Profile { reading, skip_unlisted: true, ..Profile::new(&text) };
    let filter = filter.unwrap_or_else(|| must(compile(&profile, &tables)).0);
    prove(&filter, profile, &tables);
    must(load(&filter, 0));
    end(3, Command::new(&words[1]).args(&words[2..]).exec());
}
