//! The refusals, with their numbers and a sentence for each.
use std::error::Error;
use std::fmt;

/// Why a call did nothing. A refusal leaves the cache and its clock as they were.
///
/// Where several apply, a call gives the one that stands first in its list. The numbers do not rise along every list: REGISTER's
/// is 1, 2, 3, 4, 13, 14, 5, 6 and so on.
#[derive(Clone, Copy, Debug, PartialEq, Eq, Hash)]
#[non_exhaustive]
pub enum Refusal {
    /// The cache is not well formed, or, for opening, no capacity of the family fits its length; or, for a call of [`small`](crate::small), it has more
    /// than 64 places.
    Cache = 1,
    /// A key, an identifier, a field or a buffer for the answer has a wrong length, or a window is out of range.
    Length = 2,
    /// The clock is before the cache's last clock or past its range.
    Clock = 3,
    /// The advertisement has a wrong length, as one of the other family has.
    AdLength = 4,
    /// The signature is not vouched for.
    Signature = 5,
    /// A live entry has this service and peer.
    Held = 6,
    /// The ticket has a wrong length or kind.
    Ticket = 7,
    /// The ticket's tag is not this registrar's.
    Tag = 8,
    /// The ticket's times contradict each other or the clock.
    Times = 9,
    /// The ticket is for another advertisement: one that differs from this in any byte.
    Other = 10,
    /// The ticket is brought outside the call's window.
    Window = 11,
    /// The protocol ID is not 1 to 255 bytes.
    Protocol = 12,
    /// The advertisement has a wrong kind.
    AdKind = 13,
    /// The advertisement has port 0.
    AdPort = 14,
    /// The message is not in the accepted form, or its timestamp is before the epoch or past the clock's range.
    Message = 15,
    /// The epoch is out of range, or the advertisement cannot be told in a message.
    NoMessage = 16,
    /// No live entry of this service and peer is there to be withdrawn.
    NotHeld = 17,
    /// The bounds are not of their form.
    Bounds = 18,
    /// The wait is not over, the service and address have no bound, and no place of the bounds is free.
    NoPlace = 19,
    /// The advertisement's stamp is after the clock or too old; of the calls of [`small`](crate::small) alone.
    Stamp = 20,
}

impl Refusal {
    /// Every refusal, by rising number.
    pub const ALL: [Refusal; 20] = [
        Refusal::Cache,
        Refusal::Length,
        Refusal::Clock,
        Refusal::AdLength,
        Refusal::Signature,
        Refusal::Held,
        Refusal::Ticket,
        Refusal::Tag,
        Refusal::Times,
        Refusal::Other,
        Refusal::Window,
        Refusal::Protocol,
        Refusal::AdKind,
        Refusal::AdPort,
        Refusal::Message,
        Refusal::NoMessage,
        Refusal::NotHeld,
        Refusal::Bounds,
        Refusal::NoPlace,
        Refusal::Stamp,
    ];

    /// The refusal of this number, if there is one.
    pub fn from_number(number: i64) -> Option<Refusal> {
        Refusal::ALL
            .into_iter()
            .find(|refusal| refusal.number() == number)
    }

    /// The number that stands for this refusal in logs and in C.
    pub fn number(self) -> i64 {
        self as i64
    }

    /// What is wrong, in a sentence without its full stop.
    pub fn sentence(self) -> &'static str {
        match self {
            Refusal::Cache => "the cache is not well formed, or no capacity fits its length (a small registrar's: of at most 64), or the family is neither 4 nor 6",
            Refusal::Length => "a key, an identifier, a field or a buffer for the answer has a wrong length, or the window is not 1 to 60,000 ms",
            Refusal::Clock => "the clock is before the cache's last clock, or above 2^40 - 1",
            Refusal::AdLength => "the advertisement is not 143 bytes (IPv4) or 155 (IPv6)",
            Refusal::Signature => "the signature is not vouched for",
            Refusal::Held => "a live entry already has this service and peer",
            Refusal::Ticket => "the ticket is not 89 bytes of kind 8",
            Refusal::Tag => "the ticket's tag is not this registrar's",
            Refusal::Times => "the ticket's times are out of order, in the future, or its wait is not 1 to 900,000 ms",
            Refusal::Other => "the ticket is for another advertisement",
            Refusal::Window => "the ticket is brought before its wait has passed, or after the window that follows",
            Refusal::Protocol => "the protocol ID is not 1 to 255 bytes",
            Refusal::AdKind => "the advertisement is not of kind 1 (IPv4) or 10 (IPv6)",
            Refusal::AdPort => "the advertisement has port 0",
            Refusal::Message => "the message is not an Advertisement in the accepted form, or its timestamp is outside the clock's range",
            Refusal::NoMessage => "the epoch is not below 2^33, or the advertisement has no message: its check refuses it, or its stamp is above 2^40 - 1 or no whole second",
            Refusal::NotHeld => "there is no live entry of this service and peer that is not withdrawn",
            Refusal::Bounds => "the bounds are not 1 to 1,000 places of the cache's family, with no until past its range, each service and address once and zeros behind the last",
            Refusal::NoPlace => "the wait is not over, and every place of the bounds is in force for another service or address",
            Refusal::Stamp => "the advertisement's stamp is after the clock, or more than 2,592,000,000 ms before it",
        }
    }
}

impl fmt::Display for Refusal {
    fn fmt(&self, f: &mut fmt::Formatter<'_>) -> fmt::Result {
        write!(f, "refusal {}: {}", self.number(), self.sentence())
    }
}

impl Error for Refusal {}
