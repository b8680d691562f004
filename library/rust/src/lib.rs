//! Checks, runs, compiles and compares seccomp filters, by libscf.
//!
//! What the library answers is proved (docs/TRUST.md of scf), but for [`table`] and [`load`]. Each function is one of
//! its arguments and may be called in any number of threads.
//!
//! ```no_run
//! use scf::{is_proved, own_tables, Profile, Reading};
//!
//! let (filter, json) = (std::fs::read("box.bpf")?, std::fs::read("config.json")?);
//! let profile = Profile { reading: Reading::Runc, skip_unlisted: true, ..Profile::new(&json) };
//! assert!(is_proved(&[&filter], profile, &own_tables())?);
//! # Ok::<(), Box<dyn std::error::Error>>(())
//! ```
#![warn(missing_docs)]

mod answer;
mod compare;
mod fault;
mod sys;

pub use answer::{
    answers, Action, Answer, Decision, Fact, Instruction, LeftOut, Listing, Place, ProfileAnswer, Reason, Region,
};
pub use compare::{is_proved, Compare, Comparison, RecordsFinding, Relation, Scope, Side, Verdict};
pub use fault::{Error, Fault, Kind, Source, NO_ENTRY};
use sys::Bytes;

/// The most steps that scf takes without --limit.
pub const LIMIT: u64 = 1_000_000;

/// A flag of [`load`], which then leaves no_new_privs as it is.
pub const KEEP_PRIVILEGES: u32 = 0x8000_0000;

/// What a filter sees of a syscall: the kernel's struct seccomp_data.
#[repr(C)]
#[derive(Clone, Copy, Debug, Default, PartialEq, Eq, Hash)]
pub struct Call {
    /// The syscall number.
    pub nr: u32,
    /// The architecture, as [`Architecture::audit`] has it.
    pub arch: u32,
    /// The instruction pointer.
    pub ip: u64,
    /// The arguments.
    pub args: [u64; 6],
}

/// An OCI profile, and how it is read.
#[derive(Clone, Copy, Debug)]
pub struct Profile<'a> {
    /// JSON.
    pub text: &'a [u8],
    /// How it is read.
    pub reading: Reading,
    /// Skip the tables of architectures that it doesn't list; else they are refused.
    pub skip_unlisted: bool,
}

/// How a profile is read: by its words, as a runtime reads it that hands it to libseccomp, or with TRAP's data.
#[derive(Clone, Copy, Debug, PartialEq, Eq, Hash)]
#[non_exhaustive]
pub enum Reading {
    /// By its words.
    Strict = 0,
    /// As runc does.
    Runc = 1,
    /// As crun does.
    Crun = 2,
    /// By its words, but `errnoRet` beside SCMP_ACT_TRAP is its data.
    Sandbox = 3,
}

impl<'a> Profile<'a> {
    /// Read by its words; tables of architectures that it doesn't list are refused.
    pub fn new(text: &'a [u8]) -> Self {
        Profile { text, reading: Reading::Strict, skip_unlisted: false }
    }

    fn raw(&self) -> sys::Profile {
        let (reading, flags) = (self.reading as u32, self.skip_unlisted as u32);
        sys::Profile { text: Bytes::of(self.text), reading, flags, reserved: [0; 2] }
    }
}

/// A syscall table.
#[derive(Clone, Copy, Debug)]
pub struct Table<'a> {
    /// The architecture whose syscalls it numbers.
    pub architecture: Architecture,
    /// A line for each name.
    pub text: &'a [u8],
    /// The first number, as calls have it, that runc's stub answers by ENOSYS.
    pub stub: Option<u32>,
}

/// Whose syscalls a table numbers.
#[derive(Clone, Copy, Debug, PartialEq, Eq, Hash)]
#[non_exhaustive]
pub enum Architecture {
    /// x86-64.
    X86_64 = 1,
    /// i386.
    X86 = 2,
    /// x32, whose table has its numbers without the bit 0x40000000.
    X32 = 3,
    /// aarch64.
    Aarch64 = 4,
    /// 32-bit arm.
    Arm = 5,
    /// 64-bit RISC-V.
    Riscv64 = 6,
    /// 64-bit PowerPC, little-endian.
    Ppc64le = 7,
    /// MIPS o32, little-endian.
    Mipsel = 8,
    /// MIPS n64, little-endian.
    Mipsel64 = 9,
    /// MIPS n32, little-endian.
    Mipsel64n32 = 10,
    /// 64-bit LoongArch.
    Loongarch64 = 11,
}

impl Architecture {
    /// The `arch` of its calls: AUDIT_ARCH_.. of linux/audit.h.
    pub const fn audit(self) -> u32 {
        match self {
            Architecture::X86_64 | Architecture::X32 => 0xc000_003e,
            Architecture::X86 => 0x4000_0003,
            Architecture::Aarch64 => 0xc000_00b7,
            Architecture::Arm => 0x4000_0028,
            Architecture::Riscv64 => 0xc000_00f3,
            Architecture::Ppc64le => 0xc000_0015,
            Architecture::Mipsel => 0x4000_0008,
            Architecture::Mipsel64 => 0xc000_0008,
            Architecture::Mipsel64n32 => 0xe000_0008,
            Architecture::Loongarch64 => 0xc000_0102,
        }
    }
}

/// In words, by the names of scf's own tables: `socket(0x2, 0x1, 0x0, 0x0, 0x0, 0x0) of x86-64`.
impl std::fmt::Display for Call {
    fn fmt(&self, f: &mut std::fmt::Formatter<'_>) -> std::fmt::Result {
        let (mut text, mut needed) = (vec![0; 512], 0);
        unsafe { sys::scf_call_text(self, text.as_mut_ptr(), text.len(), &mut needed) };
        text.truncate(needed);
        f.write_str(&String::from_utf8_lossy(&text))
    }
}

/// Makes a call of the library; an error says why it failed.
fn invoke(call: impl FnOnce(&mut sys::Fault) -> u32) -> Result<(), Error> {
    let mut fault = sys::Fault::default();
    match call(&mut fault) {
        0 => Ok(()),
        2 => Err(Error::WrongArgument),
        3 => Err(Error::NoMemory),
        _ => {
            Err(Error::Refused(Fault { source: fault.source.into(), kind: fault.kind.into(), numbers: fault.numbers }))
        }
    }
}

/// The list that a call hands out: it gets an address and the room there, and the place of the length needed.
fn output<T: Copy + Default>(
    room: usize,
    mut call: impl FnMut(*mut T, usize, &mut usize, &mut sys::Fault) -> u32,
) -> Result<Vec<T>, Error> {
    let (mut list, mut needed) = (vec![T::default(); room], 0);
    loop {
        invoke(|fault| call(list.as_mut_ptr(), list.len(), &mut needed, fault))?;
        if needed <= list.len() {
            list.truncate(needed);
            return Ok(list);
        }
        list.resize(needed, T::default());
    }
}

/// The two lists that a call hands out.
fn outputs<T: Copy + Default, U: Copy + Default>(
    first_room: usize,
    room: usize,
    mut call: impl FnMut(*mut T, usize, &mut usize, *mut U, usize, &mut usize, &mut sys::Fault) -> u32,
) -> Result<(Vec<T>, Vec<U>), Error> {
    let (mut firsts, mut first_needed) = (vec![T::default(); first_room], 0);
    loop {
        let list = output(room, |at, room, needed, fault| {
            call(firsts.as_mut_ptr(), firsts.len(), &mut first_needed, at, room, needed, fault)
        })?;
        if first_needed <= firsts.len() {
            firsts.truncate(first_needed);
            return Ok((firsts, list));
        }
        firsts.resize(first_needed, T::default());
    }
}

fn list_of(filters: &[&[u8]]) -> Vec<Bytes> {
    filters.iter().map(|filter| Bytes::of(filter)).collect()
}

// SAFETY of each unsafe block of this crate: a pointer and a length are those of one slice, what is written is
// exclusively borrowed and so overlaps nothing else, and the library keeps no pointer.

/// The version of the library: major, minor, patch.
pub fn version() -> (u32, u32, u32) {
    let number = unsafe { sys::scf_version() };
    (number >> 16, number >> 8 & 0xff, number & 0xff)
}

/// The number of instructions of a filter that the kernel accepts.
pub fn check(filter: &[u8]) -> Result<usize, Error> {
    let mut count = 0;
    invoke(|fault| unsafe { sys::scf_check(filter.as_ptr(), filter.len(), &mut count, fault) })?;
    Ok(count)
}

/// A filter's answer to a call, and how many instructions it executed.
pub fn run(filter: &[u8], call: &Call) -> Result<(Answer, u32), Error> {
    let (mut answer, mut steps) = (0, 0);
    invoke(|fault| unsafe { sys::scf_run(filter.as_ptr(), filter.len(), call, &mut answer, &mut steps, fault) })?;
    Ok((Answer(answer), steps))
}

/// A filter's answer to a call, and the indices of the instructions that it executed.
pub fn trace(filter: &[u8], call: &Call) -> Result<(Answer, Vec<usize>), Error> {
    let mut answer = 0;
    let path = output(4096, |path, room, needed, fault| unsafe {
        sys::scf_trace(filter.as_ptr(), filter.len(), call, &mut answer, path, room, needed, fault)
    })?;
    Ok((Answer(answer), path))
}

/// The listing of a filter, which isn't checked.
pub fn list(filter: &[u8]) -> Result<Vec<u8>, Error> {
    output(1 << 16, |out, room, needed, fault| unsafe {
        sys::scf_list(filter.as_ptr(), filter.len(), out, room, needed, fault)
    })
}

/// The filter that a text spells. It isn't checked.
pub fn assemble(text: &[u8]) -> Result<Vec<u8>, Error> {
    output(1 << 15, |out, room, needed, fault| unsafe {
        sys::scf_assemble(text.as_ptr(), text.len(), out, room, needed, fault)
    })
}

/// The answer of a stack of filters, the oldest first, to a call, and the instruction that gives it.
pub fn decide(filters: &[&[u8]], call: &Call) -> Result<Decision, Error> {
    let (filters, mut decision) = (list_of(filters), sys::Decision::default());
    invoke(|fault| unsafe { sys::scf_decide(filters.as_ptr(), filters.len(), call, &mut decision, fault) })?;
    Ok(decision.into())
}

/// A filter that answers every call as the profile does, and how much of that isn't judged: KILL_PROCESS answers the
/// calls of architectures that have no table.
pub fn compile(profile: &Profile, tables: &[Table]) -> Result<(Vec<u8>, LeftOut), Error> {
    let (profile, tables, mut left_out) = (profile.raw(), sys::tables_of(tables), sys::LeftOut::default());
    let filter = output(1 << 15, |out, room, needed, fault| unsafe {
        sys::scf_compile(&profile, tables.as_ptr(), tables.len(), out, room, needed, &mut left_out, fault)
    })?;
    Ok((filter, left_out.into()))
}

/// A profile's answer to a call; the reason is `Foreign` where the call's architecture has no table.
pub fn ask(profile: &Profile, tables: &[Table], call: &Call) -> Result<ProfileAnswer, Error> {
    let (profile, tables, mut answer) = (profile.raw(), sys::tables_of(tables), sys::Answer::default());
    invoke(|fault| unsafe { sys::scf_ask(&profile, tables.as_ptr(), tables.len(), call, &mut answer, fault) })?;
    let reason = Reason::of(answer.reason, answer.entry);
    Ok(ProfileAnswer { answer: Answer(answer.answer), reason, left_out: answer.left_out.into() })
}

/// scf's own tables of all architectures.
pub fn own_tables() -> Vec<Table<'static>> {
    use Architecture::*;
    let own = |architecture| Table { architecture, text: table(architecture), stub: None };
    [X86_64, X86, X32, Aarch64, Arm, Riscv64, Ppc64le, Mipsel, Mipsel64, Mipsel64n32, Loongarch64].map(own).to_vec()
}

/// The syscall table that scf has of an architecture. Its first line says of which kernel it is.
pub fn table(architecture: Architecture) -> &'static [u8] {
    let mut size = 0;
    // SAFETY: the library's tables stay as they are.
    unsafe {
        let table = sys::scf_table(architecture as u32, &mut size);
        if table.is_null() {
            &[]
        } else {
            std::slice::from_raw_parts(table, size)
        }
    }
}

/// Loads a filter for this thread by seccomp(2), with SECCOMP_FILTER_FLAG_.. of linux/seccomp.h, and sets no_new_privs
/// unless the flags have [`KEEP_PRIVILEGES`]. The result is 0, the listener's descriptor, or with TSYNC the id of a
/// thread that can't be reached: then no thread gets the filter.
pub fn load(filter: &[u8], flags: u32) -> std::io::Result<i32> {
    match unsafe { sys::scf_load(filter.as_ptr(), filter.len(), flags) } {
        result if result < 0 => Err(std::io::Error::from_raw_os_error(-result)),
        result => Ok(result),
    }
}
