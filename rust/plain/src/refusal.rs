//! Refusals: the number says why, the place says where.

/// Why a call was refused, and where in the message.
#[derive(Clone, Copy, Debug, PartialEq, Eq, Hash)]
pub struct Refusal {
    /// One of the refusal numbers 1 to 20, the constants below.
    pub number: u8,
    /// The offset that the number's rule names; 0 where it names none.
    pub place: usize,
}

impl Refusal {
    /// 1: the message is empty or over 272 octets, or the record over its limits.
    pub const LIMITS: u8 = 1;
    /// 2: the common header is not listed.
    pub const UNLISTED: u8 = 2;
    /// 3: the common parameter is repeated.
    pub const COMMON_REPEATED: u8 = 3;
    /// 4: the message ends inside a parameter, or with no end mark.
    pub const MESSAGE_CUT: u8 = 4;
    /// 5: the user class, the signal kind or the number of the sequence is not
    /// allowed.
    pub const NOT_ALLOWED: u8 = 5;
    /// 6: the user class or the signal kind is missing at the end mark.
    pub const MISSING: u8 = 6;
    /// 7: octets stand after the end mark.
    pub const AFTER_END: u8 = 7;
    /// 8: the transfer name is unused.
    pub const UNUSED_NAME: u8 = 8;
    /// 9: the PLI is not that name's.
    pub const WRONG_PLI: u8 = 9;
    /// 10: the transfer name stands oftener than it may: once, and CC three times.
    pub const NAME_REPEATED: u8 = 10;
    /// 11: the contents are cut by the end of the transfer data, or are of
    /// another length than the PLI rule gives.
    pub const CONTENTS_CUT: u8 = 11;
    /// 12: a zero bit is set, the form is bad, or a field too large for its bits.
    pub const BAD_FORM: u8 = 12;
    /// 13: a digit is spare, a character may not be there, or the filler is not 0.
    /// In reading the place is that of the octet which holds the first such half or
    /// character, in writing that of the header.
    pub const SPARE_DIGIT: u8 = 13;
    /// 14: the transfer data is over 255 octets.
    pub const DATA_OVER: u8 = 14;
    /// 15: the lent room is too short.
    pub const ROOM_SHORT: u8 = 15;
    /// 16: the name, that one of several, the code of a row, or the transfer data is
    /// absent.
    pub const ABSENT: u8 = 16;
    /// 17: there is no class list for this header.
    pub const NO_CLASS_LIST: u8 = 17;
    /// 18: the check digit of the charging information is wrong.
    pub const CHECK_DIGIT: u8 = 18;
    /// 19: a form or a header of the connection order is not listed, not under
    /// that form, or repeated.
    pub const CONNECTION_ORDER: u8 = 19;
    /// 20: a rule of the mobile call profile is not kept.
    pub const PROFILE: u8 = 20;

    /// The refusal `number` at `place`.
    pub const fn new(number: u8, place: usize) -> Self {
        Refusal { number, place }
    }

    /// The refusal `number` where no place is named.
    pub(crate) const fn placeless(number: u8) -> Self {
        Refusal { number, place: 0 }
    }
}
