//! Refusals: the number says why, the place says where.

use std::error::Error;
use std::fmt;

/// Why a call was refused, and where in the message.
#[derive(Clone, Copy, Debug, PartialEq, Eq, Hash)]
pub struct Refusal {
    /// One of the numbers 1 to 20, the constants below.
    pub number: u8,
    /// The offset in the message at which the fault stands: in a transfer
    /// parameter that of its header, but for a bad digit that is read
    /// ([`BAD_DIGIT`](Self::BAD_DIGIT)) that of the octet; of the mobile call
    /// profile that of the end mark; 0 where the number has no place.
    pub place: usize,
}

impl Refusal {
    /// 1: a message that is empty or too long, or a record that holds too much.
    pub const OVER_LIMITS: u8 = 1;
    /// 2: a common header that is not in the list.
    pub const UNLISTED: u8 = 2;
    /// 3: a common parameter for the second time.
    pub const REPEATED: u8 = 3;
    /// 4: no end mark, or a common parameter that runs past the message's end.
    pub const CUT_SHORT: u8 = 4;
    /// 5: a user class or a signal kind that is not among those allowed, or a
    /// sequence with another number than 1.
    pub const NOT_ALLOWED: u8 = 5;
    /// 6: an end mark without user class or signal kind before it.
    pub const MISSING: u8 = 6;
    /// 7: something that follows the end mark.
    pub const LEFT_OVER: u8 = 7;
    /// 8: a transfer name that is not in use.
    pub const UNUSED_NAME: u8 = 8;
    /// 9: a transfer name under a PLI that it does not have.
    pub const OTHER_PLI: u8 = 9;
    /// 10: a transfer name for the second time, CC for the fourth.
    pub const REPEATED_NAME: u8 = 10;
    /// 11: contents that run past their end, or of another length than their
    /// PLI says.
    pub const CUT_CONTENTS: u8 = 11;
    /// 12: a set bit that must be 0, contents of the wrong form, or a value too
    /// large for its bits.
    pub const BAD_FORM: u8 = 12;
    /// 13: a digit without a meaning, a character that may not be there, or a
    /// filler that is not 0.
    ///
    /// Where a message is read, also one that is to be edited, the place is that
    /// of the octet which holds the first of them: the low half of an octet
    /// comes before the high one, the filler behind all digits. In writing it is
    /// where the header would stand, and 0 for the new parameter of an edit.
    pub const BAD_DIGIT: u8 = 13;
    /// 14: transfer data longer than 255 octets.
    pub const TRANSFER_OVER: u8 = 14;
    /// 15: lent memory that is too short.
    pub const NO_ROOM: u8 = 15;
    /// 16: a parameter, one of several, a row's code, or transfer data that is not there.
    pub const ABSENT: u8 = 16;
    /// 17: a header whose code values have no classes.
    pub const NO_CLASS_LIST: u8 = 17;
    /// 18: a check digit of the charging information that is wrong.
    pub const CHECK_DIGIT: u8 = 18;
    /// 19: a form or header of the connection order that is not listed, not
    /// under that form, or repeated.
    pub const CONNECTION_ORDER: u8 = 19;
    /// 20: a rule of the mobile call profile that is not kept.
    pub const PROFILE: u8 = 20;

    /// The refusal `number` at `place`.
    pub const fn new(number: u8, place: usize) -> Self {
        Refusal { number, place }
    }

    /// What the number means, in a few words.
    pub const fn meaning(self) -> &'static str {
        match self.number {
            Self::OVER_LIMITS => "empty, too long, or over the limits of a record",
            Self::UNLISTED => "unlisted common header",
            Self::REPEATED => "repeated common parameter",
            Self::CUT_SHORT => "the message is cut short",
            Self::NOT_ALLOWED => "user class, signal kind or sequence number not allowed",
            Self::MISSING => "user class or signal kind missing",
            Self::LEFT_OVER => "octets left over after the end mark",
            Self::UNUSED_NAME => "unused transfer name",
            Self::OTHER_PLI => "transfer name under another PLI",
            Self::REPEATED_NAME => "transfer name too often",
            Self::CUT_CONTENTS => "contents cut, or of another length",
            Self::BAD_FORM => "bad form",
            Self::BAD_DIGIT => "bad digit, character or filler",
            Self::TRANSFER_OVER => "transfer data over 255 octets",
            Self::NO_ROOM => "too little room",
            Self::ABSENT => "absent",
            Self::NO_CLASS_LIST => "no classes for this header",
            Self::CHECK_DIGIT => "wrong check digit",
            Self::CONNECTION_ORDER => "form or header that cannot stand in a connection order",
            Self::PROFILE => "a rule of the mobile call profile is not kept",
            _ => "unknown number",
        }
    }
}

impl fmt::Display for Refusal {
    fn fmt(&self, f: &mut fmt::Formatter<'_>) -> fmt::Result {
        let Refusal { number, place } = self;
        write!(f, "refused, {number} at {place}: {}", self.meaning())
    }
}

impl Error for Refusal {}
