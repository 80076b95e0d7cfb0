//! Why a call has no answer.
use std::fmt;

/// The caller's mistake, or want of memory. Nothing has changed.
#[derive(Clone, Copy, Debug, PartialEq, Eq)]
pub enum Refusal {
    Memory,
    /// A number or a length is out of range.
    Range,
    /// The reading is below that of a request or of a response that landed, or after a sleep not above all that were
    /// asked at.
    Early,
    /// The interval doesn't fit 64 bits.
    TooWide,
    NotUtf8,
    /// A code that this package doesn't know.
    Other(u32),
}

/// What became of a datagram that is no accepted answer. Read on.
#[derive(Clone, Copy, Debug, PartialEq, Eq)]
pub enum Ignored {
    Undecodable,
    NotAnAnswer,
    Unasked,
    Impossible,
}

/// What is wrong with a CII text. Hang up.
#[derive(Clone, Copy, Debug, PartialEq, Eq)]
pub enum TextFault {
    NotJson,
    NotObject,
    Field,
    Moved,
}

/// Why there is no answer now. It may come: ask on.
#[derive(Clone, Copy, Debug, PartialEq, Eq)]
pub enum Cause {
    NoAnswer,
    NoTimestamp,
    SessionClosed,
    Unreadable,
    Unavailable,
    NoRate,
    /// The property is null.
    Null,
    /// The tick isn't shown, as far as is known now.
    Never,
}

/// Why a call has no answer: its groups say what to do.
#[derive(Clone, Copy, Debug, PartialEq, Eq)]
pub enum Error {
    Refusal(Refusal),
    Ignored(Ignored),
    Text(TextFault),
    /// The responses that were accepted since the last sleep contradict each other: not all of them are true. Begin
    /// with a new companion. [`Companion::slept`](crate::Companion::slept) forgets them too.
    Disagree,
    Cause(Cause),
}

impl fmt::Display for Error {
    fn fmt(&self, to: &mut fmt::Formatter<'_>) -> fmt::Result {
        match self {
            Error::Refusal(refusal) => write!(to, "refused: {refusal:?}"),
            Error::Ignored(ignored) => write!(to, "ignored: {ignored:?}"),
            Error::Text(fault) => write!(to, "bad text: {fault:?}"),
            Error::Disagree => write!(to, "responses disagree"),
            Error::Cause(cause) => write!(to, "none: {cause:?}"),
        }
    }
}

impl std::error::Error for Error {}

/// What a code of the library says.
pub(crate) fn told(code: u32) -> Result<(), Error> {
    Err(match code {
        0 => return Ok(()),
        1 => Error::Refusal(Refusal::Memory),
        2 => Error::Refusal(Refusal::Range),
        3 => Error::Refusal(Refusal::Early),
        6 => Error::Refusal(Refusal::TooWide),
        7 => Error::Refusal(Refusal::NotUtf8),
        16 => Error::Ignored(Ignored::Undecodable),
        17 => Error::Ignored(Ignored::NotAnAnswer),
        18 => Error::Ignored(Ignored::Unasked),
        19 => Error::Ignored(Ignored::Impossible),
        32 => Error::Text(TextFault::NotJson),
        33 => Error::Text(TextFault::NotObject),
        34 => Error::Text(TextFault::Field),
        35 => Error::Text(TextFault::Moved),
        36 => Error::Disagree,
        48 => Error::Cause(Cause::NoAnswer),
        49 => Error::Cause(Cause::NoTimestamp),
        50 => Error::Cause(Cause::SessionClosed),
        51 => Error::Cause(Cause::Unreadable),
        52 => Error::Cause(Cause::Unavailable),
        53 => Error::Cause(Cause::NoRate),
        54 => Error::Cause(Cause::Null),
        55 => Error::Cause(Cause::Never),
        other => Error::Refusal(Refusal::Other(other)),
    })
}
