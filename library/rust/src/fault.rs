//! Why a call failed.

use crate::sys;
use std::fmt;

/// An enum of numbers of scf.h, each with a name of `docs/FAULTS.md`, and one for those of a later library.
macro_rules! numbers {
    ($(#[$about:meta])* $name:ident: $($variant:ident)*;) => {
        $(#[$about])*
        #[derive(Clone, Copy, Debug, PartialEq, Eq, Hash)]
        #[non_exhaustive]
        #[allow(missing_docs)]
        pub enum $name {
            $($variant,)*
            /// One that this version doesn't know.
            Other(u32),
        }

        impl From<u32> for $name {
            fn from(number: u32) -> $name {
                const ALL: &[$name] = &[$($name::$variant),*];
                ALL.get((number as usize).wrapping_sub(1)).copied().unwrap_or($name::Other(number))
            }
        }

        impl From<$name> for u32 {
            fn from(name: $name) -> u32 {
                const ALL: &[$name] = &[$($name::$variant),*];
                match (name, ALL.iter().position(|&one| one == name)) {
                    ($name::Other(number), _) => number,
                    (_, place) => place.map_or(0, |place| place as u32 + 1),
                }
            }
        }
    };
}

numbers! {
    /// What is refused.
    Source: Filter Beside Text Table Profile Compile Stack Compare;
}

numbers! {
    /// Why it is refused: the kinds of docs/FAULTS.md.
    Kind: Memory Read Truncated TooLong Empty Code Load Scratch Divisor Shift Jump LastNotReturn Unset NotAscii Mnemonic
    Operand NumberRange Label JumpTooFar Form Name Number Repeated Json Missing Kind Action Operator EmptyNames Index
    RepeatedIndex Errno ErrnoRange NoX8664 EngineForm TooMany Conflict TooLarge NotListed;
}

/// The number in place of an entry of a profile, for what is outside of them.
pub const NO_ENTRY: u64 = u64::MAX;

/// Why an input isn't accepted.
#[derive(Clone, Copy, Debug, PartialEq, Eq, Hash)]
pub struct Fault {
    /// Which input.
    pub source: Source,
    /// Why.
    pub kind: Kind,
    /// The numbers that say where, in the order of the line that docs/FAULTS.md has for it; then 0.
    pub numbers: [u64; 3],
}

/// The line that scf prints, and a line of what that means.
impl fmt::Display for Fault {
    fn fmt(&self, f: &mut fmt::Formatter<'_>) -> fmt::Result {
        let (source, kind) = (self.source.into(), self.kind.into());
        let fault = sys::Fault { source, kind, numbers: self.numbers, reserved: [0; 4] };
        let (mut text, mut needed) = (vec![0; 1024], 0);
        unsafe { sys::scf_fault_text(&fault, text.as_mut_ptr(), text.len(), &mut needed) };
        text.truncate(needed);
        f.write_str(String::from_utf8_lossy(&text).trim_end())
    }
}

/// Why a call failed.
#[derive(Clone, Copy, Debug, PartialEq, Eq, Hash)]
#[non_exhaustive]
pub enum Error {
    /// An input isn't accepted.
    Refused(Fault),
    /// There is no table, or one twice, or no call in the scope, or the library doesn't know a number: it is older than
    /// this crate.
    WrongArgument,
    /// Out of memory.
    NoMemory,
}

impl fmt::Display for Error {
    fn fmt(&self, f: &mut fmt::Formatter<'_>) -> fmt::Result {
        match self {
            Error::Refused(fault) => fault.fmt(f),
            Error::WrongArgument => f.write_str("a number has no meaning, or there is no table, one twice, or no call"),
            Error::NoMemory => f.write_str("out of memory"),
        }
    }
}

impl std::error::Error for Error {}
