//! Conditions on a call and its outcome, each of which is to occur.

use crate::contents::{len_of, parameter_at};
use plain::carriers::CARRIER_ROW_LIMIT;
use plain::listing::ROW_LIMIT;
use plain::order::ORDER_ROW_LIMIT;
use plain::transfer::{name_of, CARRIERS, ORDER};
use trial::outcome::{CARRIER_ROW_LEN, ROW_LEN};
use trial::record::Transfer;
use trial::{answer, Input, Kind, Outcome};

/// A condition and its name.
pub type Condition = (&'static str, fn(&Input, &Outcome) -> bool);

pub const CONDITIONS: &[Condition] = &[
    ("5 octets read", |i, o| reads(i, o, 0, |m| m.len() == 5)),
    ("272 octets read", |i, o| reads(i, o, 0, |m| m.len() == 272)),
    ("273 octets read", |i, o| reads(i, o, 1, |m| m.len() == 273)),
    ("data of 255 read", |i, o| {
        reads(i, o, 0, |m| data_len(m) == Some(255))
    }),
    ("data of 255 written", |i, o| {
        writes(i, o, 0, |w| w.data_len() == 255)
    }),
    ("data of 256 written", |i, o| {
        writes(i, o, 14, |w| w.data_len() == 256)
    }),
    ("data of 255 by appending", |i, o| appends(i, o, 0, 255)),
    ("data of 256 by appending", |i, o| appends(i, o, 14, 256)),
    ("54 transfer parameters", |i, o| {
        writes(i, o, 0, |w| w.transfers.len() == 54)
    }),
    ("55 transfer parameters", |i, o| {
        writes(i, o, 1, |w| {
            w.within() == [true, false, true] && w.transfers.len() == 55
        })
    }),
    ("54 transfer parameters read", |i, o| {
        reads(i, o, 0, |m| transfers_in(m) == 54)
    }),
    ("three CC read", |i, o| {
        reads(i, o, 0, |m| carriers_in(m) == 3)
    }),
    ("a fourth CC read", |i, o| {
        refuses(i, o, 10, |p| p[0] == CARRIERS)
    }),
    ("three CC written", |i, o| {
        writes(i, o, 0, |w| w.carriers() == 3)
    }),
    ("a fourth CC written", |i, o| {
        writes(i, o, 10, |w| w.carriers() == 4 && !w.repeats_others())
    }),
    ("6 common parameters", |i, o| {
        writes(i, o, 0, |w| w.common == 6)
    }),
    ("7 common parameters", |i, o| {
        writes(i, o, 1, |w| {
            w.within() == [false, true, true] && w.common == 7
        })
    }),
    ("marks of all but 04 that are too large", |i, o| {
        writes(i, o, 0, |w| {
            w.other_marks.len() == 5 && w.other_marks.iter().all(|&m| m > 1)
        })
    }),
    ("contents of 255 in one C5", |i, o| {
        writes(i, o, 14, |w| w.data == 1 && w.contents_len() == 255)
    }),
    ("contents of 256 in one C5", |i, o| {
        writes(i, o, 1, |w| w.data == 1 && w.contents_alone_are(256))
    }),
    ("contents of 255 in two C5", |i, o| {
        writes(i, o, 3, |w| w.data == 2 && w.contents_len() == 255)
    }),
    ("contents of 256 in two C5", |i, o| {
        writes(i, o, 1, |w| w.data == 2 && w.contents_alone_are(256))
    }),
    ("63 digits read", |i, o| {
        holds(i, o, 0x18, |c| c[0] & 0x3F == 63)
    }),
    ("63 digits written", |i, o| writes(i, o, 0, |w| w.dials(63))),
    ("64 digits written", |i, o| {
        writes(i, o, 11, |w| w.dials(64))
    }),
    ("odd count of dialled digits", |i, o| {
        holds(i, o, 0x18, |c| c[0] & 1 == 1)
    }),
    ("even count of dialled digits", |i, o| {
        holds(i, o, 0x18, |c| c[0] & 1 == 0 && c.len() > 1)
    }),
    ("odd count of a number's digits", |i, o| {
        holds(i, o, 0x17, |c| c[0] & 0x80 != 0)
    }),
    ("even count of a number's digits", |i, o| {
        holds(i, o, 0x17, |c| c[0] & 0x80 == 0 && c.len() > 2)
    }),
    ("DA with 06", |i, o| holds(i, o, 0x1A, |c| c[0] == 0x06)),
    ("DA without 06", |i, o| holds(i, o, 0x1A, |c| c[0] != 0x06)),
    ("DC withheld", |i, o| {
        holds(i, o, 0x1C, |c| c[1] & 0x0C == 0x08)
    }),
    ("DC withheld with one wrong bit", |i, o| {
        refuses(i, o, 12, |p| withheld_wrong_bits(p) == Some(1))
    }),
    ("DC withheld with digits", |i, o| {
        refuses(i, o, 12, |p| withheld_wrong_bits(p) == Some(0))
    }),
    ("the most rows", |i, o| {
        matches!(i, Input::Rows { .. }) && o.number() == 0 && o.value() == ROW_LIMIT
    }),
    ("octets past what is replaced in", |i, o| {
        past(i, o, Kind::Replace)
    }),
    ("octets past what is appended to", |i, o| {
        past(i, o, Kind::Append)
    }),
    ("octets past what is removed from", |i, o| {
        past(i, o, Kind::Remove)
    }),
    ("image short by one", |i, o| short(i, o, Kind::Read)),
    ("room short by one", |i, o| short(i, o, Kind::Write)),
    ("table short by one", |i, o| short(i, o, Kind::Rows)),
    ("buffer short by one for a new one", |i, o| {
        short(i, o, Kind::Replace)
    }),
    ("buffer short by one for one more", |i, o| {
        short(i, o, Kind::Append)
    }),
    ("octets for charging short by one", |i, o| {
        short(i, o, Kind::Charging)
    }),
    ("table for an order short by one", |i, o| {
        short(i, o, Kind::Order)
    }),
    ("octets past the rows of an order", |i, o| {
        orders(i, o, |_| o.value() * ROW_LEN < o.memory.len())
    }),
    ("order of a form alone", |i, o| {
        orders(i, o, |_| o.value() == 1)
    }),
    ("order with the most rows", |i, o| {
        orders(i, o, |_| o.value() == ORDER_ROW_LIMIT)
    }),
    ("order of more than 200 octets", |i, o| {
        orders(i, o, |contents| contents.len() > 200)
    }),
    ("order with 255 digits", |i, o| {
        let is_full = |row: &[u8]| row[2..] == [0x91, 129, 0];
        orders(i, o, |_| o.memory.chunks_exact(ROW_LEN).any(is_full))
    }),
    ("table for carriers short by one", |i, o| {
        short(i, o, Kind::Carriers)
    }),
    ("octets past the rows of carriers", |i, o| {
        opens(i, o, |_| o.value() * CARRIER_ROW_LEN < o.memory.len())
    }),
    ("carriers of a direction alone", |i, o| {
        opens(i, o, |contents| contents.len() == 1)
    }),
    ("carriers with the most rows, all of one level", |i, o| {
        opens(i, o, |_| {
            o.value() == CARRIER_ROW_LIMIT && o.memory[CARRIER_ROW_LEN * 2] == 1
        })
    }),
    ("carriers with the most rows, of two levels", |i, o| {
        opens(i, o, |_| {
            o.value() == CARRIER_ROW_LIMIT && o.memory[CARRIER_ROW_LEN * 2] == 2
        })
    }),
    ("carriers of 253 octets", |i, o| {
        opens(i, o, |contents| contents.len() == 253)
    }),
    ("no octet for rows of carriers, and 16", |i, o| {
        i.kind() == Kind::Carriers && o.number() == 16 && o.memory.is_empty()
    }),
    ("octets for rows of carriers, and 16", |i, o| {
        i.kind() == Kind::Carriers && o.number() == 16 && o.memory.len() > 8
    }),
    ("no transfer data, and carriers", |i, o| {
        is_without_data(i, Kind::Carriers) && o.number() == 16
    }),
    ("octets for digits short by one", |i, o| {
        short(i, o, Kind::CarrierDigits)
    }),
    ("octets past the digits", |i, o| {
        digits(i, o, |count| 0 < count && count < o.memory.len())
    }),
    ("odd count of a code's digits", |i, o| {
        digits(i, o, |count| count % 2 == 1)
    }),
    ("even count of a code's digits", |i, o| {
        digits(i, o, |count| count % 2 == 0 && count > 0)
    }),
    ("no octet for no digit", |i, o| {
        digits(i, o, |count| count == 0 && o.memory.is_empty())
    }),
    ("494 digits", |i, o| digits(i, o, |count| count == 494)),
    ("493 digits", |i, o| digits(i, o, |count| count == 493)),
    ("digits of the direction", |i, o| {
        no_digits(i, o, Some([0, 0]))
    }),
    ("digits of a carrier entry", |i, o| {
        no_digits(i, o, Some([1, 0xFA]))
    }),
    (
        "digits of a carrier entry with the tag of a code",
        |i, o| no_digits(i, o, Some([1, 0xFE])),
    ),
    ("digits of what is carried", |i, o| {
        no_digits(i, o, Some([2, 0xFC]))
    }),
    ("digits of the row behind the last", |i, o| {
        no_digits(i, o, None) && asks_for_row(i, |row, rows| row == rows)
    }),
    ("digits of a row of which the low octets are 0", |i, o| {
        no_digits(i, o, None) && asks_for_row(i, |row, _| row == 1 << 32)
    }),
    (
        "digits of the last row that there is a number for",
        |i, o| no_digits(i, o, None) && asks_for_row(i, |row, _| row == usize::MAX),
    ),
    ("no transfer data, and digits", |i, o| {
        is_without_data(i, Kind::CarrierDigits) && o.number() == 16
    }),
    ("272 octets in the profile", |i, o| {
        enquires(i, o, 0, |m| m.len() == 272)
    }),
    ("272 octets that are not in the profile", |i, o| {
        enquires(i, o, 20, |m| m.len() == 272)
    }),
    ("no transfer data, by the profile", |i, o| {
        enquires(i, o, 20, |m| data_len(m).is_none())
    }),
    ("272 octets written by the profile", |i, o| {
        i.kind() == Kind::ProfileWrite && o.packed == 272
    }),
    ("image for the profile short by one", |i, o| {
        short(i, o, Kind::ProfileRead)
    }),
    ("room for the profile short by one", |i, o| {
        short(i, o, Kind::ProfileWrite)
    }),
    ("octets for added classes short by one", |i, o| {
        short(i, o, Kind::AddedClasses)
    }),
    ("no octet for the image, and 20", |i, o| {
        not_kept(i, o, Kind::ProfileRead, |lent| lent == 0)
    }),
    ("octets for the image, and 20", |i, o| {
        not_kept(i, o, Kind::ProfileRead, |lent| lent > 200)
    }),
    ("too little room, and 20", |i, o| {
        not_kept(i, o, Kind::ProfileWrite, |lent| lent <= o.place())
    }),
    ("room, and 20", |i, o| {
        not_kept(i, o, Kind::ProfileWrite, |lent| lent > o.place())
    }),
    ("no octet for added classes, and 20", |i, o| {
        not_kept(i, o, Kind::AddedClasses, |lent| lent == 0)
    }),
    ("octets for added classes, and 20", |i, o| {
        not_kept(i, o, Kind::AddedClasses, |lent| lent > 12)
    }),
    ("no octet for added classes, and 16", |i, o| {
        i.kind() == Kind::AddedClasses && o.number() == 16 && o.memory.is_empty()
    }),
    ("no octet for no added class", |i, o| {
        i.kind() == Kind::AddedClasses && o.packed == 0 && o.memory.is_empty()
    }),
    ("octets past the most added classes", |i, o| {
        i.kind() == Kind::AddedClasses && o.packed == 12 && o.memory.len() > 12
    }),
];

/// Whether a message that is wanted was read by the profile, with this number for an
/// answer.
fn enquires(input: &Input, outcome: &Outcome, number: u8, wanted: impl Fn(&[u8]) -> bool) -> bool {
    let message = input.message().filter(|message| wanted(message));
    input.kind() == Kind::ProfileRead && outcome.number() == number && message.is_some()
}

/// Whether such a call was refused with 20, and wanted is how many octets it lent.
fn not_kept(input: &Input, outcome: &Outcome, kind: Kind, wanted: impl Fn(usize) -> bool) -> bool {
    input.kind() == kind && outcome.number() == 20 && wanted(input.lent().len())
}

/// Whether a message that is wanted was read, with this number for an answer.
fn reads(input: &Input, outcome: &Outcome, number: u8, wanted: impl Fn(&[u8]) -> bool) -> bool {
    matches!(input, Input::Read { message, .. } if outcome.number() == number && wanted(message))
}

/// Whether a message was read in which the contents under a name are wanted.
fn holds(input: &Input, outcome: &Outcome, name: u8, wanted: impl Fn(&[u8]) -> bool) -> bool {
    let found = |m: &[u8]| plain::find_transfer(m, name, 0).is_ok_and(|range| wanted(&m[range]));
    reads(input, outcome, 0, found)
}

/// Whether an order was opened whose contents are wanted.
fn orders(input: &Input, outcome: &Outcome, wanted: impl Fn(&[u8]) -> bool) -> bool {
    let Input::Order { message, .. } = input else {
        return false;
    };
    let found = || plain::find_transfer(message, name_of(ORDER), 0).ok();
    outcome.number() == 0 && found().is_some_and(|range| wanted(&message[range]))
}

/// Whether carriers were opened whose contents are wanted.
fn opens(input: &Input, outcome: &Outcome, wanted: impl Fn(&[u8]) -> bool) -> bool {
    let Input::Carriers { message, which, .. } = input else {
        return false;
    };
    let found = || plain::find_transfer(message, name_of(CARRIERS), *which).ok();
    outcome.number() == 0 && found().is_some_and(|range| wanted(&message[range]))
}

/// Whether the digits of a code were given, and wanted is how many they are.
fn digits(input: &Input, outcome: &Outcome, wanted: impl Fn(usize) -> bool) -> bool {
    input.kind() == Kind::CarrierDigits && outcome.number() == 0 && wanted(outcome.value())
}

/// Whether the digits of a row were refused with 16: of a row with this level and
/// tag, or of none that there is.
fn no_digits(input: &Input, outcome: &Outcome, wanted: Option<[u8; 2]>) -> bool {
    let Input::CarrierDigits {
        message,
        which,
        row,
        ..
    } = input
    else {
        return false;
    };
    let Ok(rows) = plain::carriers(message, *which) else {
        return false;
    };
    let row = rows.get(*row).map(|row| [row.level, row.tag]);
    outcome.number() == 16 && row == wanted
}

/// Whether wanted is the row that is asked for, of so many.
fn asks_for_row(input: &Input, wanted: impl Fn(usize, usize) -> bool) -> bool {
    match input {
        Input::CarrierDigits {
            message,
            which,
            row,
            ..
        } => plain::carriers(message, *which).is_ok_and(|rows| wanted(*row, rows.len())),
        _ => false,
    }
}

/// Whether the message of such a call is sound and has no transfer data.
fn is_without_data(input: &Input, kind: Kind) -> bool {
    let is_bare = |m: &[u8]| plain::verdict(m).is_ok() && data_len(m).is_none();
    input.kind() == kind && input.message().is_some_and(is_bare)
}

/// How many CC an accepted message has.
fn carriers_in(message: &[u8]) -> usize {
    let is_there = |which: &usize| plain::find_transfer(message, name_of(CARRIERS), *which).is_ok();
    (0..).take_while(is_there).count()
}

/// How many transfer parameters an accepted message has.
fn transfers_in(message: &[u8]) -> usize {
    let Ok(data) = plain::find_common(message, 0xC5) else {
        return 0;
    };
    let rows = plain::rows(message).unwrap_or_default();
    let inside = rows.iter().filter(|row| data.contains(&row.offset.into()));
    inside.count()
}

/// Whether reading refused the wanted parameter, of which the octets from the
/// header to its end are looked at; none where they are cut.
fn refuses(input: &Input, outcome: &Outcome, number: u8, wanted: impl Fn(&[u8]) -> bool) -> bool {
    let whole = |m: &[u8]| {
        let octets = parameter_at(m, outcome.place());
        octets.get(..len_of(octets)).is_some_and(&wanted)
    };
    reads(input, outcome, number, whole)
}

/// How many bits are set that must be 0 in the first two octets of a DC that is
/// withheld. If there is none, digits are what is wrong about it; if there are
/// some, it is looked at without digits only.
fn withheld_wrong_bits(parameter: &[u8]) -> Option<u32> {
    let [0xDC, _, first, second, digits @ ..] = parameter else {
        return None;
    };
    let bits = first.count_ones() + (second & 0xF0).count_ones();
    let withheld = second & 0x0C == 0x08;
    (withheld && (bits == 0 || digits.is_empty())).then_some(bits)
}

/// The length of the transfer data of an accepted message.
fn data_len(message: &[u8]) -> Option<usize> {
    let data = plain::find_common(message, 0xC5).ok()?;
    Some(data.len())
}

/// Whether an appending whose transfer data would have so many octets was
/// answered with this number.
fn appends(input: &Input, outcome: &Outcome, number: u8, len: usize) -> bool {
    let Input::Append { buffer, n, new } = input else {
        return false;
    };
    let message = buffer.get(..usize::from(*n)).unwrap_or(&[]);
    outcome.number() == number && data_len(message).is_some_and(|old| old + new.len() == len)
}

/// Whether an edit was accepted, and octets stand past the message.
fn past(input: &Input, outcome: &Outcome, kind: Kind) -> bool {
    let n = match input {
        Input::Replace { n, .. } | Input::Append { n, .. } | Input::Remove { n, .. } => *n,
        _ => return false,
    };
    let end = outcome.value().max(n.into());
    input.kind() == kind && outcome.number() == 0 && end < input.lent().len()
}

/// Whether the call was refused with 15, and would not have been with one more
/// octet lent.
fn short(input: &Input, outcome: &Outcome, kind: Kind) -> bool {
    let mut longer = input.clone();
    match &mut longer {
        Input::Read { image: lent, .. }
        | Input::Write { room: lent, .. }
        | Input::Rows { table: lent, .. }
        | Input::Replace { buffer: lent, .. }
        | Input::Append { buffer: lent, .. }
        | Input::Remove { buffer: lent, .. }
        | Input::Charging { out: lent, .. }
        | Input::Order { table: lent, .. }
        | Input::ProfileRead { image: lent, .. }
        | Input::ProfileWrite { room: lent, .. }
        | Input::AddedClasses { out: lent, .. }
        | Input::Carriers { table: lent, .. }
        | Input::CarrierDigits { out: lent, .. } => lent.push(0),
        _ => return false,
    }
    input.kind() == kind && outcome.number() == 15 && answer(&longer).number() == 0
}

/// What a record that is to be written comes to, also over its limits.
struct Written {
    common: usize,
    /// How many of the common parameters are C5.
    data: usize,
    /// The more-data marks of the common parameters that have none, all but 04.
    other_marks: Vec<u8>,
    /// The headers and values of the transfer parameters, of all C5 together.
    transfers: Vec<Transfer>,
}

impl Written {
    /// None if the image is no whole record.
    fn of(image: &[u8]) -> Option<Self> {
        let (&common, mut rest) = image.split_first()?;
        let mut written = Written {
            common: common.into(),
            data: 0,
            other_marks: Vec::new(),
            transfers: Vec::new(),
        };
        for _ in 0..common {
            let (&[header, _, _, _, _, more_data, count], behind) = rest.split_first_chunk()?;
            rest = behind;
            if header != 0x04 {
                written.other_marks.push(more_data);
            }
            if header == 0xC5 {
                written.data += 1;
                for _ in 0..count {
                    rest = written.take_transfer(rest)?;
                }
            }
        }
        rest.is_empty().then_some(written)
    }

    /// Takes one transfer parameter; gives what stands behind it.
    fn take_transfer<'i>(&mut self, octets: &'i [u8]) -> Option<&'i [u8]> {
        let (head, rest) = octets.split_first_chunk::<11>()?;
        let count = u16::from_le_bytes([head[9], head[10]]);
        let values = rest.get(..count.into())?;
        self.transfers.push(Transfer {
            header: head[0],
            values: values.to_vec(),
            ..Transfer::default()
        });
        Some(&rest[values.len()..])
    }

    /// Whether a parameter has so many dialled digits.
    fn dials(&self, count: usize) -> bool {
        let headers = [0x90, 0x91, 0x95, 0x98, 0xA3];
        let mut dialled = self
            .transfers
            .iter()
            .filter(|t| headers.contains(&t.header));
        dialled.any(|t| t.values.len() == count)
    }

    /// How many CC it has.
    fn carriers(&self) -> usize {
        let carriers = self.transfers.iter().filter(|t| t.header == CARRIERS);
        carriers.count()
    }

    /// Whether another name stands twice.
    fn repeats_others(&self) -> bool {
        let others = self.transfers.iter().filter(|t| t.header != CARRIERS);
        let names: Vec<u8> = others.map(|t| name_of(t.header)).collect();
        (1..names.len()).any(|at| names[..at].contains(&names[at]))
    }

    fn contents_len(&self) -> usize {
        self.transfers.iter().map(Transfer::contents_len).sum()
    }

    /// The octets of the transfer parameters, laid out.
    fn data_len(&self) -> usize {
        let heads = self
            .transfers
            .iter()
            .map(|t| 1 + usize::from(t.header >> 6 == 3));
        heads.sum::<usize>() + self.contents_len()
    }

    /// Whether the common parameters, the transfer parameters and their contents
    /// are within their limits.
    fn within(&self) -> [bool; 3] {
        [
            self.common <= 6,
            self.transfers.len() <= 54,
            self.contents_len() <= 255,
        ]
    }

    /// Whether the contents have so many octets, over their limit, and nothing
    /// else is over its own.
    fn contents_alone_are(&self, len: usize) -> bool {
        self.contents_len() == len && self.within() == [true, true, false]
    }
}

/// Whether writing a record that is wanted was answered with this number.
fn writes(input: &Input, outcome: &Outcome, number: u8, wanted: impl Fn(&Written) -> bool) -> bool {
    let Input::Write { image, .. } = input else {
        return false;
    };
    outcome.number() == number && Written::of(image).is_some_and(|written| wanted(&written))
}
