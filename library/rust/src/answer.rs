//! What filters and profiles answer.

use crate::compare::question_of;
use crate::{output, sys, Call, Error, Scope, Side, Table};
use std::fmt;

/// What a filter answers to a call: an action and 16 bits of data. Displayed as scf prints it: `ERRNO 1`.
#[derive(Clone, Copy, Debug, Default, PartialEq, Eq, Hash)]
pub struct Answer(pub u32);

/// What an answer does: SECCOMP_RET_.. of linux/seccomp.h.
#[derive(Clone, Copy, Debug, PartialEq, Eq, Hash)]
#[non_exhaustive]
#[allow(missing_docs)]
pub enum Action {
    KillProcess,
    KillThread,
    Trap,
    Errno,
    UserNotif,
    Trace,
    Log,
    Allow,
    /// One that has no name, with the answer's upper half.
    Other(u32),
}

impl Answer {
    /// The action.
    pub fn action(self) -> Action {
        match self.0 & 0xffff_0000 {
            0x8000_0000 => Action::KillProcess,
            0 => Action::KillThread,
            0x0003_0000 => Action::Trap,
            0x0005_0000 => Action::Errno,
            0x7fc0_0000 => Action::UserNotif,
            0x7ff0_0000 => Action::Trace,
            0x7ffc_0000 => Action::Log,
            0x7fff_0000 => Action::Allow,
            other => Action::Other(other),
        }
    }

    /// The error number of `Errno`, the message of `Trace`, and so on.
    pub fn data(self) -> u16 {
        self.0 as u16
    }
}

impl fmt::Display for Answer {
    fn fmt(&self, f: &mut fmt::Formatter<'_>) -> fmt::Result {
        let name = match self.action() {
            Action::KillProcess => "KILL_PROCESS",
            Action::KillThread => "KILL_THREAD",
            Action::Trap => "TRAP",
            Action::Errno => "ERRNO",
            Action::UserNotif => "USER_NOTIF",
            Action::Trace => "TRACE",
            Action::Log => "LOG",
            Action::Allow => "ALLOW",
            Action::Other(_) => return write!(f, "UNNAMED {:#010x}", self.0),
        };
        write!(f, "{name} {}", self.data())
    }
}

/// An instruction of a stack of filters.
#[derive(Clone, Copy, Debug, PartialEq, Eq, Hash)]
pub struct Instruction {
    /// The index of its filter, 0 the oldest.
    pub filter: u64,
    /// Its index in the filter.
    pub index: u64,
}

/// What a stack of filters answers to a call.
#[derive(Clone, Copy, Debug, PartialEq, Eq)]
pub struct Decision {
    /// The answer.
    pub answer: Answer,
    /// The instruction that gives it; none if there is no filter, and the call is allowed.
    pub by: Option<Instruction>,
}

impl From<sys::Decision> for Decision {
    fn from(decision: sys::Decision) -> Decision {
        let by = Instruction { filter: decision.filter, index: decision.index };
        Decision { answer: Answer(decision.answer), by: (decision.has_filter != 0).then_some(by) }
    }
}

/// Why a profile answers a call as it does.
#[derive(Clone, Copy, Debug, PartialEq, Eq, Hash)]
#[non_exhaustive]
pub enum Reason {
    /// By its default.
    Default,
    /// By the entry with this index in `syscalls`.
    Entry(u32),
    /// The call is of an architecture that has no table.
    Foreign,
    /// By runc's stub.
    Stub,
    /// One of a later library, by its number.
    Other(u32),
}

impl Reason {
    pub(crate) fn of(number: u32, entry: u32) -> Reason {
        match number {
            1 => Reason::Default,
            2 => Reason::Entry(entry),
            3 => Reason::Foreign,
            4 => Reason::Stub,
            other => Reason::Other(other),
        }
    }
}

/// How much of a profile isn't judged.
#[derive(Clone, Copy, Debug, Default, PartialEq, Eq, Hash)]
pub struct LeftOut {
    /// The architectures that it lists without a table, each occurrence.
    pub not_looked_at: u64,
    /// The names that no table has, each occurrence.
    pub skipped: u64,
}

impl From<sys::LeftOut> for LeftOut {
    fn from(counts: sys::LeftOut) -> LeftOut {
        LeftOut { not_looked_at: counts.not_looked_at, skipped: counts.skipped }
    }
}

/// A profile's answer to a call.
#[derive(Clone, Copy, Debug, PartialEq, Eq)]
pub struct ProfileAnswer {
    /// The answer.
    pub answer: Answer,
    /// Why it is this.
    pub reason: Reason,
    /// How much of the profile isn't judged.
    pub left_out: LeftOut,
}

/// Where the answer of a region comes from.
#[derive(Clone, Copy, Debug, PartialEq, Eq, Hash)]
pub enum Place {
    /// An instruction of a filter.
    Filter {
        /// The index of the filter, 0 the oldest.
        filter: u64,
        /// The index of the instruction.
        index: u64,
    },
    /// A reason of a profile.
    Profile(Reason),
}

/// What is known of a word of the calls of a region: 0 is nr, 1 arch, 4 and 5 are the first argument, and so on.
#[derive(Clone, Copy, Debug, PartialEq, Eq, Hash)]
#[non_exhaustive]
#[allow(missing_docs)]
pub enum Fact {
    /// It lies in one of such intervals.
    Within { word: u32, low: u32, high: u32 },
    /// `word & mask == value`.
    HasBits { word: u32, mask: u32, value: u32 },
    /// `word & mask != value`.
    LacksBits { word: u32, mask: u32, value: u32 },
    /// One of a later library, by its number.
    Other { word: u32, kind: u32 },
}

impl From<sys::Fact> for Fact {
    fn from(fact: sys::Fact) -> Fact {
        let sys::Fact { word, kind, low, high } = fact;
        match kind {
            1 => Fact::Within { word, low, high },
            2 => Fact::HasBits { word, mask: low, value: high },
            3 => Fact::LacksBits { word, mask: low, value: high },
            kind => Fact::Other { word, kind },
        }
    }
}

/// Calls that a side answers alike, from one place.
#[derive(Clone, Debug, PartialEq, Eq)]
pub struct Region {
    /// The answer, if it is known.
    pub answer: Option<Answer>,
    /// Whether each call with these facts is answered so, and lies in no other exact region.
    pub is_exact: bool,
    /// Where the answer comes from.
    pub place: Place,
    /// One of the calls.
    pub example: Option<Call>,
    /// What is known of their words; of a word without a fact nothing.
    pub facts: Vec<Fact>,
}

impl Region {
    fn of(region: &sys::Region, facts: &[sys::Fact]) -> Region {
        let place = match region.reason {
            0 => Place::Filter { filter: region.filter, index: region.index },
            reason => Place::Profile(Reason::of(reason, region.entry)),
        };
        Region {
            answer: (region.is_known != 0).then(|| Answer(region.answer)),
            is_exact: region.is_exact != 0,
            place,
            example: (region.has_example != 0).then(|| region.example),
            facts: facts.iter().map(|&fact| fact.into()).collect(),
        }
    }
}

/// All that a side answers.
#[derive(Clone, Debug, PartialEq, Eq)]
pub struct Listing {
    /// The regions; none if the limit was reached.
    pub regions: Option<Vec<Region>>,
    /// How much of the side's profile isn't judged.
    pub left_out: LeftOut,
}

/// All that a side answers to the calls of a scope, by regions, in at most `limit` steps.
pub fn answers(side: Side, tables: &[Table], scope: Scope, limit: u64) -> Result<Listing, Error> {
    let (tables, question) = (sys::tables_of(tables), question_of(scope, 0, limit, limit));
    let (mut listing, mut facts, mut facts_needed) = (sys::Listing::default(), vec![sys::Fact::default(); 8192], 0);
    let regions = side.with(|side| loop {
        let listed = output(1024, |regions, room, needed, fault| unsafe {
            sys::scf_answers(
                side,
                tables.as_ptr(),
                tables.len(),
                &question,
                &mut listing,
                regions,
                room,
                needed,
                facts.as_mut_ptr(),
                facts.len(),
                &mut facts_needed,
                fault,
            )
        });
        if facts_needed <= facts.len() {
            break listed;
        }
        facts.resize(facts_needed, sys::Fact::default());
    })?;
    let mut facts = &facts[..];
    let listed = regions.iter().map(|region: &sys::Region| {
        let (first, later) = facts.split_at(region.fact_count as usize);
        facts = later;
        Region::of(region, first)
    });
    let listed = listed.collect();
    Ok(Listing { regions: (listing.is_finished != 0).then(|| listed), left_out: listing.left_out.into() })
}
