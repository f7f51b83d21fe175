//! The numbers other than success that calls return.
use std::fmt;

/// Makes an enum of faults by their numbers in `afdx.h`.
macro_rules! faults {
    ($(#[$about:meta])* $name:ident { $($fault:ident = $number:literal),+ $(,)? }) => {
        $(#[$about])*
        #[derive(Clone, Copy, Debug, PartialEq, Eq)]
        #[non_exhaustive]
        #[repr(u8)]
        #[allow(missing_docs)]
        pub enum $name { $($fault = $number),+ }

        impl $name {
            /// All faults, with their numbers in `afdx.h`.
            pub const ALL: &'static [(u8, $name)] = &[$(($number, $name::$fault)),+];

            pub(crate) fn of(answer: u8) -> Option<$name> {
                Self::ALL.iter().find(|it| it.0 == answer).map(|it| it.1)
            }
        }
    };
}

faults! {
    /// Why a plan or its table is refused.
    PlanFault {
        Toml = 1, MissingKey = 2, UnknownKey = 3, WrongKind = 4, OutOfRange = 5, BadBag = 6, DuplicateVl = 7,
        DuplicatePort = 8, NoSuchVl = 9, NoSuchSub = 10, SamplingTooLong = 11, SameFlow = 12, SharedUnicast = 13,
        Limit = 14, NoTable = 16, OtherLayout = 17, WrongLength = 18, WrongSum = 19, WrongValue = 20,
    }
}

faults! {
    /// Why a message is refused. After `Full` poll, then try again.
    SendFault { Empty = 1, TooLong = 2, Closed = 3, Exhausted = 4, Full = 5 }
}

faults! {
    /// Why a call can't be made now.
    Misuse {
        NotHeld = 32, WrongHandle = 33, Held = 34, TimeBack = 35, NoPort = 36, NoSub = 37, NoLink = 38, NoNetwork = 39,
        NoFrame = 40, SmallBuffer = 41, PortMissing = 42, Gathered = 43, NotGathered = 44,
    }
}

/// A number other than success.
#[derive(Clone, Debug, PartialEq, Eq)]
#[non_exhaustive]
pub enum Error {
    /// A plan is refused: the fault of the least number, and of a text the lines of `explain`.
    Plan(PlanFault, String),
    /// A message is refused.
    Send(SendFault),
    /// Both networks had failed before the poll.
    BothDown,
    /// An allocation failed.
    OutOfMemory,
    /// The call can't be made now.
    Misuse(Misuse),
    /// A number that this crate doesn't know.
    Unknown(u8),
}

impl fmt::Display for Error {
    fn fmt(&self, f: &mut fmt::Formatter<'_>) -> fmt::Result {
        match self {
            Error::Plan(fault, told) if told.is_empty() => write!(f, "the plan is refused: {fault:?}"),
            Error::Plan(fault, told) => write!(f, "the plan is refused: {fault:?}\n{told}"),
            Error::Send(fault) => write!(f, "the message is refused: {fault:?}"),
            Error::BothDown => f.write_str("both networks have failed"),
            Error::OutOfMemory => f.write_str("an allocation failed"),
            Error::Misuse(fault) => write!(f, "the call can't be made now: {fault:?}"),
            Error::Unknown(answer) => write!(f, "unknown answer {answer}"),
        }
    }
}

impl std::error::Error for Error {}

const MEMORY: u8 = 15;

/// Which numbers below those of misuse a call has.
#[derive(Clone, Copy)]
pub(crate) enum Call {
    Open,
    Send,
    Poll,
    Other,
}

/// Returns the error of a number that a call returned, if it isn't success.
pub(crate) fn want(answer: u8, call: Call) -> Result<(), Error> {
    let known = match call {
        _ if answer == 0 => return Ok(()),
        _ if answer == MEMORY => Some(Error::OutOfMemory),
        Call::Open => PlanFault::of(answer).map(|it| Error::Plan(it, String::new())),
        Call::Send => SendFault::of(answer).map(Error::Send),
        Call::Poll if answer == 1 => Some(Error::BothDown),
        _ => None,
    };
    Err(known.or_else(|| Misuse::of(answer).map(Error::Misuse)).unwrap_or(Error::Unknown(answer)))
}
