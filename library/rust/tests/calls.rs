//! Each call once, and what refuses it. The answers are those of linux/seccomp.h and of the OCI specification.

use scf::{
    answers, ask, assemble, check, compile, decide, is_proved, list, load, own_tables, run, table, trace, version,
    Action, Answer, Architecture, Call, Compare, Decision, Error, Fault, Instruction, Kind, LeftOut, Place, Profile,
    ProfileAnswer, Reading, Reason, Relation, Scope, Source, Table, Verdict, NO_ENTRY,
};

const ALLOW: [u8; 8] = [6, 0, 0, 0, 0, 0, 0xff, 0x7f];
const DENY: [u8; 8] = [6, 0, 0, 0, 1, 0, 5, 0];
/// Word 4 with its lowest bit set, XOR the word, has no other bit, so this denies; but no comparison splits that far.
const UNKNOWN: [u64; 8] =
    [0x10_0000_0020, 7, 0x1_0000_0044, 0xac, 0x1_0000_0074, 0x0100_0015, 0x0005_0001_0000_0006, 0x7fff_0000_0000_0006];
const RET_ALLOW: Answer = Answer(0x7fff_0000);
const RET_EPERM: Answer = Answer(0x0005_0001);
const X86_64: u32 = 0xc000_003e;
const PROFILE: Profile = Profile {
    text: br#"{"defaultAction": "SCMP_ACT_ERRNO", "syscalls": [{"names": ["read"], "action": "SCMP_ACT_ALLOW"}]}"#,
    reading: Reading::Strict,
    skip_unlisted: false,
};
const NATIVE: Table = Table { architecture: Architecture::X86_64, text: b"read 0\nwrite 1\n", stub: None };
const NOTHING: LeftOut = LeftOut { not_looked_at: 0, skipped: 0 };

fn refused<T>(source: Source, kind: Kind, numbers: [u64; 3]) -> Result<T, Error> {
    Err(Error::Refused(Fault { source, kind, numbers }))
}

fn call(nr: u32) -> Call {
    Call { nr, arch: X86_64, ..Call::default() }
}

#[test]
fn filters() {
    assert_eq!(version(), (0, 1, 0));
    assert_eq!(check(&ALLOW), Ok(1));
    assert_eq!(check(&[]), refused(Source::Filter, Kind::Empty, [0; 3]));
    assert_eq!(check(&[ALLOW.as_slice(), &[6]].concat()), refused(Source::Filter, Kind::Truncated, [8, 0, 0]));
    assert_eq!(run(&ALLOW, &call(0)), Ok((RET_ALLOW, 1)));
    assert_eq!(trace(&DENY, &call(0)), Ok((RET_EPERM, vec![0])));
    let by = Some(Instruction { filter: 0, index: 0 });
    assert_eq!(decide(&[&DENY, &ALLOW], &call(0)), Ok(Decision { answer: RET_EPERM, by }));
    assert_eq!(decide(&[], &call(0)), Ok(Decision { answer: RET_ALLOW, by: None }));
}

#[test]
fn texts() {
    assert_eq!(assemble(b"ret #0x7fff0000\n"), Ok(ALLOW.to_vec()));
    assert_eq!(assemble(b"\nrat\n"), refused(Source::Text, Kind::Mnemonic, [2, 0, 0]));
    assert_eq!(assemble(&list(&DENY).unwrap()), Ok(DENY.to_vec()));
}

fn answered(answer: Answer, reason: Reason) -> Result<ProfileAnswer, Error> {
    Ok(ProfileAnswer { answer, reason, left_out: NOTHING })
}

#[test]
fn profiles() {
    let tables = [NATIVE];
    assert_eq!(ask(&PROFILE, &tables, &call(0)), answered(RET_ALLOW, Reason::Entry(0)));
    assert_eq!(ask(&PROFILE, &tables, &call(1)), answered(RET_EPERM, Reason::Default));
    assert_eq!(ask(&PROFILE, &tables, &Call::default()), answered(Answer(0x8000_0000), Reason::Foreign));
    let empty = Profile::new(b"{}");
    assert_eq!(compile(&empty, &tables), refused(Source::Profile, Kind::Missing, [NO_ENTRY, 0, 0]));
    let (filter, left_out) = compile(&PROFILE, &tables).unwrap();
    let filters: &[&[u8]] = &[&filter];
    let compared = Compare::new(filters, PROFILE).tables(&tables).run().unwrap();
    assert_eq!((compared.verdict, compared.report.as_slice()), (Verdict::Holds, b"same\n".as_slice()));
    assert_eq!((left_out, compared.each.len()), (NOTHING, 1));
}

/// A runtime leaves out the entry whose answer is the default's; the stub answers from 1 on.
#[test]
fn readings() {
    let text = br#"{"defaultAction": "SCMP_ACT_ERRNO", "syscalls": [
        {"names": ["write"], "action": "SCMP_ACT_ALLOW"}, {"names": ["write"], "action": "SCMP_ACT_ERRNO"}]}"#;
    let strict = Profile::new(text);
    assert_eq!(compile(&strict, &[NATIVE]), refused(Source::Profile, Kind::Conflict, [1, 0, 1]));
    for reading in [Reading::Runc, Reading::Crun] {
        let profile = Profile { reading, ..strict };
        assert_eq!(ask(&profile, &[NATIVE], &call(1)), answered(RET_ALLOW, Reason::Entry(0)));
        let stubbed = [Table { stub: Some(1), ..NATIVE }];
        assert_eq!(ask(&profile, &stubbed, &call(1)), answered(Answer(0x0005_0026), Reason::Stub));
    }
    let trap = br#"{"defaultAction": "SCMP_ACT_TRAP", "defaultErrnoRet": 3}"#;
    let profile = Profile { reading: Reading::Sandbox, ..Profile::new(trap) };
    assert_eq!(ask(&profile, &[NATIVE], &call(1)), answered(Answer(0x0003_0003), Reason::Default));
}

#[test]
fn comparisons() {
    let (filters, tables): (&[&[u8]], _) = (&[&ALLOW], [NATIVE]);
    let allow = Compare::new(filters, PROFILE).tables(&tables);
    let verdict = |compare: Compare| compare.run().map(|compared| compared.verdict);
    let numbers = |first, last| Scope::Numbers(Architecture::X86_64, first, last);
    assert_eq!(verdict(allow.scope(numbers(0, 0))), Ok(Verdict::Holds));
    assert_eq!(verdict(allow.scope(Scope::EachArchitecture).relation(Relation::NoLess)), Ok(Verdict::Holds));
    match verdict(allow.scope(numbers(1, 1)).relation(Relation::NoMore)) {
        Ok(Verdict::Fails { call, left, right }) => {
            assert_eq!((call.nr, call.arch, left, right), (1, X86_64, RET_ALLOW, RET_EPERM))
        }
        other => panic!("{other:?}"),
    }
    assert_eq!(verdict(allow.limit(0)), Ok(Verdict::Unfinished));
    assert_eq!(verdict(allow.scope(numbers(1, 0))), Err(Error::WrongArgument));
    let unknown: Vec<u8> = UNKNOWN.iter().flat_map(|instruction| instruction.to_le_bytes()).collect();
    let undecided: &[&[u8]] = &[&unknown];
    let undecided = Compare::new(undecided, PROFILE).tables(&tables).scope(numbers(1, 1)).run().unwrap();
    assert_eq!(undecided.verdict, Verdict::Undecided { side: 1, at: 7 });
    let (deny, both): (&[&[u8]], &[&[u8]]) = (&[&DENY], &[&ALLOW, &DENY]);
    assert_eq!(verdict(Compare::new(deny, both).relation(Relation::SameDisposition)), Ok(Verdict::Holds));
    let compared = allow.scope(Scope::EachCall).run().unwrap();
    let each: Vec<_> = compared.each.iter().map(|own| (own.architecture, own.nr, own.verdict)).collect();
    assert!(matches!(each[..], [(1, 0, Verdict::Holds), (1, 1, Verdict::Fails { .. })]));
    let none = allow.scope(Scope::EachCall).total_limit(0).run().unwrap();
    assert!(none.each.iter().all(|own| own.verdict == Verdict::Unfinished));
    let (nothing, cut): (&[&[u8]], &[&[u8]]) = (&[], &[&[6]]);
    assert_eq!(Compare::new(nothing, cut).run(), refused(Source::Beside, Kind::Truncated, [0; 3]));
    assert_eq!(verdict(Compare::new(nothing, nothing).scope(Scope::EachCall)), Err(Error::WrongArgument));
}

#[test]
fn regions() {
    let numbers = Scope::Numbers(Architecture::X86_64, 0, 1);
    let listing = answers(PROFILE.into(), &[NATIVE], numbers, 1000).unwrap();
    let regions = listing.regions.unwrap();
    assert_eq!((regions.len(), listing.left_out), (2, NOTHING));
    for region in &regions {
        let asked = ask(&PROFILE, &[NATIVE], &region.example.unwrap()).unwrap();
        assert_eq!((region.answer, region.place), (Some(asked.answer), Place::Profile(asked.reason)));
        assert!(region.is_exact && !region.facts.is_empty());
    }
    assert_eq!(answers(PROFILE.into(), &[NATIVE], Scope::All, 0).unwrap().regions, None);
}

#[test]
fn architectures() {
    const I386: u32 = Architecture::X86.audit();
    let profile = Profile::new(
        br#"{"defaultAction": "SCMP_ACT_ERRNO", "architectures": ["SCMP_ARCH_X86_64", "SCMP_ARCH_X86"],
        "syscalls": [{"names": ["read"], "action": "SCMP_ACT_ALLOW"}]}"#,
    );
    let native = Table { text: b"read 0\n", ..NATIVE };
    let both = [native, Table { architecture: Architecture::X86, text: b"read 3\n", stub: None }];
    let asked = |nr, arch| ask(&profile, &both, &Call { nr, arch, ..Call::default() });
    assert_eq!(asked(0, X86_64), answered(RET_ALLOW, Reason::Entry(0)));
    assert_eq!(asked(3, I386), answered(RET_ALLOW, Reason::Entry(0)));
    assert_eq!(asked(0, I386), answered(RET_EPERM, Reason::Default));
    assert_eq!(asked(1 << 30, X86_64), answered(Answer(0x8000_0000), Reason::Foreign));
    let compared = |filter: &[u8]| {
        let filters: &[&[u8]] = &[filter];
        Compare::new(filters, profile).tables(&both).scope(Scope::EachArchitecture).run().unwrap()
    };
    let result = compared(&compile(&profile, &both).unwrap().0);
    assert_eq!((result.verdict, result.report.as_slice()), (Verdict::Holds, b"same\n".as_slice()));
    let (one, left_out) = compile(&profile, &[native]).unwrap();
    assert_eq!(left_out, LeftOut { not_looked_at: 1, skipped: 0 });
    assert!(matches!(compared(&one).verdict, Verdict::Fails { call: Call { arch: I386, .. }, .. }));
    assert_eq!(is_proved(&[&compile(&profile, &both).unwrap().0], profile, &both), Ok(true));
    // an architecture that is listed has no table; i386, which isn't listed, is open
    assert_eq!(is_proved(&[&one], profile, &[native]), Ok(false));
    let open = Profile::new(br#"{"defaultAction": "SCMP_ACT_ALLOW"}"#);
    let same = Compare::new(&[ALLOW.as_slice()], open).tables(&[native]).scope(Scope::EachArchitecture).run();
    assert_eq!(same.unwrap().verdict, Verdict::Holds);
    assert_eq!(is_proved(&[&ALLOW], open, &[native]), Ok(false));
    let arm = Table { architecture: Architecture::Arm, text: b"", stub: None };
    assert_eq!(compile(&profile, &[native, arm]), refused(Source::Profile, Kind::NotListed, [1, 0, 0]));
    let skipping = Profile { skip_unlisted: true, ..profile };
    assert_eq!(ask(&skipping, &own_tables(), &call(0)), answered(RET_ALLOW, Reason::Entry(0)));
    assert_eq!(compile(&profile, &[native, native]), Err(Error::WrongArgument));
    assert_eq!(compile(&profile, &[]), Err(Error::WrongArgument));
}

#[test]
fn fault_texts() {
    let fault = Fault { source: Source::Profile, kind: Kind::Conflict, numbers: [308, 1, 10] };
    assert!(fault.to_string().starts_with("fault profile Conflict number 308 first 1 second 10\nTwo entries, "));
    assert_eq!(Fault { source: Source::Other(99), ..fault }.to_string(), "");
}

#[test]
fn texts_of_answers() {
    assert_eq!((RET_EPERM.action(), RET_EPERM.data(), RET_EPERM.to_string()), (Action::Errno, 1, "ERRNO 1".into()));
    assert_eq!(
        (RET_ALLOW.to_string(), Answer(0x7ffe_0001).to_string()),
        ("ALLOW 0".into(), "UNNAMED 0x7ffe0001".into())
    );
}

/// The values are those of linux/audit.h.
#[test]
fn audit_values() {
    use Architecture::*;
    let values = [X86_64, X86, X32, Aarch64, Arm].map(Architecture::audit);
    assert_eq!(values, [0xc000_003e, 0x4000_0003, 0xc000_003e, 0xc000_00b7, 0x4000_0028]);
    let later = [Riscv64, Ppc64le, Mipsel, Mipsel64, Mipsel64n32, Loongarch64].map(Architecture::audit);
    assert_eq!(later, [0xc000_00f3, 0xc000_0015, 0x4000_0008, 0xc000_0008, 0xe000_0008, 0xc000_0102]);
}

#[test]
fn tables() {
    for (architecture, line) in [(Architecture::X86_64, "\nread 0\n"), (Architecture::Arm, "\nread 3\n")] {
        let text = std::str::from_utf8(table(architecture)).unwrap();
        assert!(text.starts_with("# ") && text.contains(line));
    }
}

/// Of a thread: `getpriority` (140) answers ERRNO 1 once the filter is loaded.
#[test]
fn a_loaded_filter() {
    extern "C" {
        fn getpriority(which: i32, who: u32) -> i32;
    }
    assert_eq!(load(&[6], 0).unwrap_err().raw_os_error(), Some(22));
    let filter = assemble(b"ld [0]\njeq #140, 0, 1\nret #0x50001\nret #0x7fff0000\n").unwrap();
    let denied = std::thread::spawn(move || (load(&filter, 0).unwrap(), unsafe { getpriority(0, 0) }));
    assert_eq!(denied.join().unwrap(), (0, -1));
}

#[test]
fn threads() {
    std::thread::scope(|scope| {
        for _ in 0..16 {
            scope.spawn(|| assert!(check(&compile(&PROFILE, &[NATIVE]).unwrap().0).is_ok()));
        }
    });
}
