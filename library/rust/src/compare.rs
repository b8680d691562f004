//! Comparisons.

use crate::{list_of, outputs, sys, Answer, Architecture, Call, Error, LeftOut, Profile, Table, LIMIT};

/// What is compared.
#[derive(Clone, Copy, Debug)]
#[non_exhaustive]
pub enum Side<'a> {
    /// A profile.
    Profile(Profile<'a>),
    /// A stack of filters, the oldest first.
    Filters(&'a [&'a [u8]]),
}

impl<'a> From<Profile<'a>> for Side<'a> {
    fn from(profile: Profile<'a>) -> Self {
        Side::Profile(profile)
    }
}

impl<'a> From<&'a [&'a [u8]]> for Side<'a> {
    fn from(filters: &'a [&'a [u8]]) -> Self {
        Side::Filters(filters)
    }
}

impl<'a, const N: usize> From<&'a [&'a [u8]; N]> for Side<'a> {
    fn from(filters: &'a [&'a [u8]; N]) -> Self {
        Side::Filters(filters)
    }
}

impl Side<'_> {
    pub(crate) fn with<T>(&self, call: impl FnOnce(&sys::Side) -> T) -> T {
        let (kind, filters, profile) = match self {
            Side::Profile(profile) => (1, vec![], *profile),
            Side::Filters(filters) => (2, list_of(filters), Profile::new(b"")),
        };
        let (filters, filters_len, profile) = (filters.as_ptr(), filters.len(), profile.raw());
        call(&sys::Side { kind, reserved: 0, filters, filters_len, profile })
    }
}

/// The calls that are compared.
#[derive(Clone, Copy, Debug, PartialEq, Eq, Hash)]
#[non_exhaustive]
pub enum Scope {
    /// All, also of architectures that have no table.
    All,
    /// Those of an architecture with a number of a range, as calls have it, both ends included.
    Numbers(Architecture, u32, u32),
    /// Those of each architecture that has a table, one after another.
    EachArchitecture,
    /// Those of each syscall of each table, one after another.
    EachCall,
}

impl Scope {
    /// The calls that a program of x86-64 can make: of x86-64, i386 and x32, but for the number -1, which is no syscall.
    pub const X86_64_ABIS: [Scope; 3] = [
        Scope::Numbers(Architecture::X86_64, 0, 0x3fff_ffff),
        Scope::Numbers(Architecture::X86, 0, 0xffff_fffe),
        Scope::Numbers(Architecture::X32, 0x4000_0000, 0xffff_fffe),
    ];
}

pub(crate) fn question_of(scope: Scope, relation: u32, limit: u64, total_limit: u64) -> sys::Question {
    let (scope, architecture, first, last) = match scope {
        Scope::All => (0, 0, 0, 0),
        Scope::Numbers(architecture, first, last) => (1, architecture as u32, first, last),
        Scope::EachArchitecture => (2, 0, 0, 0),
        Scope::EachCall => (3, 0, 0, 0),
    };
    sys::Question { scope, relation, architecture, first, last, unused: 0, limit, total_limit, reserved: [0; 2] }
}

/// What is to hold of the left and the right side's answer to each call. Denied < delegated < allowed.
#[derive(Clone, Copy, Debug, PartialEq, Eq, Hash)]
#[non_exhaustive]
pub enum Relation {
    /// They are equal.
    Same = 0,
    /// The left side's is no more permissive.
    NoMore = 1,
    /// The left side's is no less permissive.
    NoLess = 2,
    /// Both are denied, delegated or allowed.
    SameDisposition = 3,
}

/// What a comparison comes to.
#[derive(Clone, Copy, Debug, PartialEq, Eq, Hash)]
#[non_exhaustive]
pub enum Verdict {
    /// The relation holds of the answers to every call of the scope.
    Holds,
    /// It doesn't hold of the answers to this call.
    Fails {
        /// The call.
        call: Call,
        /// The left side's answer.
        left: Answer,
        /// The right side's answer.
        right: Answer,
    },
    /// It isn't known whether the relation holds.
    Undecided {
        /// 1 the left side, 2 the right side.
        side: u32,
        /// The index of an instruction where a run of that side can end, or 0.
        at: u64,
    },
    /// A limit was reached.
    Unfinished,
    /// Nothing was compared.
    Nothing,
    /// One of a later library, by its number: nothing is known.
    Other(u32),
}

/// The verdict on the calls of one architecture or of one syscall.
#[derive(Clone, Copy, Debug, PartialEq, Eq)]
pub struct RecordsFinding {
    /// The architecture's number, 0 of all.
    pub architecture: u32,
    /// With `EachCall` the number, as calls have it.
    pub nr: u32,
    /// The verdict.
    pub verdict: Verdict,
}

/// What a comparison comes to.
#[derive(Clone, Debug, PartialEq, Eq)]
pub struct Comparison {
    /// The verdict on all: of several the first that fails, else the first that doesn't hold.
    pub verdict: Verdict,
    /// How much of a profile on the left side isn't judged.
    pub left: LeftOut,
    /// And of one on the right side.
    pub right: LeftOut,
    /// The verdict on each architecture or syscall.
    pub each: Vec<RecordsFinding>,
    /// What `scf compare` prints of the first. Names that a profile has are in it as they are.
    pub report: Vec<u8>,
}

/// A comparison of two sides: by default over all calls, whether the answers are the same, in at most [`LIMIT`] steps
/// for each architecture or syscall.
#[derive(Clone, Copy, Debug)]
#[must_use]
pub struct Compare<'a> {
    left: Side<'a>,
    right: Side<'a>,
    tables: &'a [Table<'a>],
    scope: Scope,
    relation: Relation,
    limit: u64,
    total_limit: u64,
}

impl<'a> Compare<'a> {
    /// Compares the left side with the right one.
    pub fn new(left: impl Into<Side<'a>>, right: impl Into<Side<'a>>) -> Self {
        let (scope, relation) = (Scope::All, Relation::Same);
        let (left, right) = (left.into(), right.into());
        Compare { left, right, tables: &[], scope, relation, limit: LIMIT, total_limit: u64::MAX }
    }

    /// The tables of a profile on either side.
    pub fn tables(self, tables: &'a [Table<'a>]) -> Self {
        Compare { tables, ..self }
    }

    /// Compares these calls.
    pub fn scope(self, scope: Scope) -> Self {
        Compare { scope, ..self }
    }

    /// Asks whether this holds.
    pub fn relation(self, relation: Relation) -> Self {
        Compare { relation, ..self }
    }

    /// Takes at most so many steps for each architecture or syscall.
    pub fn limit(self, limit: u64) -> Self {
        Compare { limit, ..self }
    }

    /// Takes at most so many steps for all together.
    pub fn total_limit(self, total_limit: u64) -> Self {
        Compare { total_limit, ..self }
    }

    /// Compares.
    #[rustfmt::skip]
    pub fn run(&self) -> Result<Comparison, Error> {
        let question = question_of(self.scope, self.relation as u32, self.limit, self.total_limit);
        let (tables, mut result) = (sys::tables_of(self.tables), sys::Comparison::default());
        let (each, report) = self.left.with(|left| self.right.with(|right| {
            outputs(8, 1 << 13, |each, each_room, each_needed, out, room, needed, fault| unsafe {
                sys::scf_compare(
                    left, right, tables.as_ptr(), tables.len(), &question, &mut result, each, each_room, each_needed,
                    out, room, needed, fault)
            })
        }))?;
        let each = each.iter().map(|of: &sys::RecordsFinding| RecordsFinding {
            architecture: of.architecture, nr: of.nr, verdict: verdict_of(&of.finding),
        });
        let (left, right) = (result.left.into(), result.right.into());
        Ok(Comparison { verdict: verdict_of(&result.finding), left, right, each: each.collect(), report })
    }
}

/// Whether filters are proved to be a profile's: they answer each call of the architectures that it lists as it says,
/// each of these has a table, and they allow no more than it of [`Scope::X86_64_ABIS`].
pub fn is_proved(filters: &[&[u8]], profile: Profile, tables: &[Table]) -> Result<bool, Error> {
    let same = Compare::new(filters, profile).tables(tables).scope(Scope::EachArchitecture);
    let no_more = Scope::X86_64_ABIS.map(|abi| same.scope(abi).relation(Relation::NoMore));
    for question in std::iter::once(same).chain(no_more) {
        let compared = question.run()?;
        if compared.verdict != Verdict::Holds || compared.right.not_looked_at != 0 {
            return Ok(false);
        }
    }
    Ok(true)
}

fn verdict_of(result: &sys::Finding) -> Verdict {
    match result.verdict {
        0 => Verdict::Nothing,
        1 => Verdict::Holds,
        2 => Verdict::Fails { call: result.call, left: Answer(result.left), right: Answer(result.right) },
        3 => Verdict::Undecided { side: result.side, at: result.at },
        4 => Verdict::Unfinished,
        other => Verdict::Other(other),
    }
}
