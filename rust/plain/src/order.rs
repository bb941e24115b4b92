//! The connection order, E0: the connection form, and parameters with headers of
//! their own, each at most once.

use crate::digits::{check_decimal, octets_for, DIALLED};
use crate::fault::{formed, none_bad, Fault};
use crate::finding::find_transfer;
use crate::listing::Row;
use crate::refusal::Refusal;
use crate::transfer::{name_of, ORDER};

/// The most rows of an order: the form's, and one for each parameter that can
/// stand under one form.
pub const ORDER_ROW_LIMIT: usize = 5;

/// The octets behind the header of a parameter.
#[derive(Clone, Copy)]
enum Layout {
    /// One octet, whatever its value.
    Octet,
    /// One octet, whose bit 7 is set.
    Marked,
    /// A length octet, which is 1, and one octet.
    Single,
    /// A count of half-octets in a whole octet, and the digits of PLI 10.
    Dialled,
    /// A length octet, two octets of fields, and digits.
    Number,
    /// A length octet, a code, a repeat count, and characters, one at least.
    Characters,
    /// A length octet, a kind of conversion, a repeat count, and a key.
    Key,
    /// A length octet, and octets that are carried unread.
    Carried,
    /// Three IA5 digits.
    Time,
}

/// A parameter that there is.
struct Kind {
    header: u8,
    layout: Layout,
    /// The forms under which it may stand.
    forms: &'static [u8],
}

const fn kind(header: u8, layout: Layout, forms: &'static [u8]) -> Kind {
    Kind {
        header,
        layout,
        forms,
    }
}

#[rustfmt::skip]
static KINDS: [Kind; 13] = [
    kind(0x41, Layout::Octet, &[0x23, 0x2B, 0x31, 0x3D, 0x46]),
    kind(0x42, Layout::Single, &[0x28]),
    kind(0x43, Layout::Marked, &[0x2E]),
    kind(0x91, Layout::Dialled, &[
        0x21, 0x22, 0x25, 0x26, 0x2B, 0x2C, 0x2D, 0x32, 0x33, 0x34, 0x35, 0x37, 0x39, 0x3A,
        0x3C, 0x3E, 0x3F, 0x41, 0x46, 0x47,
    ]),
    kind(0x92, Layout::Number, &[0x2E]),
    kind(0xC9, Layout::Characters, &[
        0x22, 0x24, 0x25, 0x26, 0x27, 0x29, 0x2B, 0x2C, 0x2D, 0x31, 0x33, 0x34, 0x35, 0x36,
    ]),
    kind(0xCA, Layout::Characters, &[0x22, 0x25, 0x26, 0x33, 0x35]),
    kind(0xCB, Layout::Carried, &[
        0x37, 0x38, 0x39, 0x3A, 0x3B, 0x3C, 0x3D, 0x3E, 0x3F, 0x41, 0x42, 0x44, 0x46, 0x47,
    ]),
    kind(0xCC, Layout::Key, &[0x2C, 0x34]),
    kind(0xCD, Layout::Characters, &[0x31]),
    kind(0xCE, Layout::Carried, &[0x37, 0x39, 0x3A, 0x3C, 0x3E, 0x3F, 0x41]),
    kind(0xCF, Layout::Carried, &[0x3D]),
    kind(0xD2, Layout::Time, &[0x31, 0x3D]),
];

/// Whether there is such a form.
fn is_form(octet: u8) -> bool {
    matches!(
        octet,
        0x21..=0x29 | 0x2B..=0x2E | 0x31..=0x3F | 0x41 | 0x42 | 0x44 | 0x46 | 0x47
    )
}

/// The most repetitions.
const REPEAT_LIMIT: u8 = 3;

impl Layout {
    /// How many octets the parameter has behind its header, of which the first,
    /// if there is one, is `first`.
    fn len(self, first: Option<u8>) -> Option<usize> {
        Some(match self {
            Layout::Octet | Layout::Marked => 1,
            Layout::Time => 3,
            Layout::Dialled => 1 + octets_for(first?.into()),
            _ => 1 + usize::from(first?),
        })
    }

    /// Tries 12, then 13 on the octets behind the header, all of which are there.
    fn check(self, own: &[u8]) -> Result<(), Fault> {
        let (first, rest) = (own[0], &own[1..]);
        match self {
            Layout::Octet | Layout::Carried => Ok(()),
            Layout::Single => formed(first == 1),
            Layout::Marked => formed(first & 0x80 != 0),
            Layout::Dialled => {
                let digits = DIALLED.check(rest, first & 1 == 1);
                digits.map_err(|fault| fault.behind(1))
            }
            Layout::Number => check_number(rest).map_err(|fault| fault.behind(1)),
            Layout::Characters => match rest {
                [_, 0..=REPEAT_LIMIT, characters @ ..] if !characters.is_empty() => {
                    all(characters, is_character).map_err(|fault| fault.behind(3))
                }
                _ => Err(Fault::Form),
            },
            Layout::Key => formed(matches!(rest, [_, 0..=REPEAT_LIMIT, ..])),
            Layout::Time => all(own, |octet| octet.is_ascii_digit()),
        }
    }
}

/// 13 at the first octet that is not as wanted.
fn all(octets: &[u8], wanted: impl Fn(u8) -> bool) -> Result<(), Fault> {
    none_bad(octets.iter().position(|&octet| !wanted(octet)))
}

/// A number of 92: as in D7, but the digits are 0 to 9 alone, and what D7 has in
/// the low half of its second octet is 0.
fn check_number(octets: &[u8]) -> Result<(), Fault> {
    let [first, second, digits @ ..] = octets else {
        return Err(Fault::Form);
    };
    let odd = first & 0x80 != 0;
    formed(second & 0x0F == 0 && !(odd && digits.is_empty()))?;
    check_decimal(digits, odd).map_err(|fault| fault.behind(2))
}

/// Whether it may stand among the characters: a digit, `;` or ETX.
fn is_character(octet: u8) -> bool {
    matches!(octet, b'0'..=b'9' | b';' | 0x03)
}

/// The headers met so far, a bit for each of [`KINDS`].
type Met = u16;

/// Tries 19, 12 and 13 on the parameter that begins `octets`; gives how many
/// octets it has behind its header. There must be a header.
fn check_parameter(form: u8, octets: &[u8], met: &mut Met) -> Result<usize, Fault> {
    let (header, behind) = (octets[0], &octets[1..]);
    let at = KINDS.iter().position(|kind| kind.header == header);
    let at = at.ok_or(Fault::Order)?;
    let Kind { layout, forms, .. } = &KINDS[at];
    if !forms.contains(&form) || *met & 1 << at != 0 {
        return Err(Fault::Order);
    }
    *met |= 1 << at;
    let len = layout.len(behind.first().copied());
    let own = len.and_then(|len| behind.get(..len));
    let own = own.ok_or(Fault::Form)?;
    layout.check(own).map_err(|fault| fault.behind(1))?;
    Ok(own.len())
}

/// Goes over the contents from left to right and tells `row` of the form and of
/// each parameter: its offset in the contents, its header, and how many octets
/// follow. Refused are 12 without a form, 19 for one that there is not, then 19,
/// 12 or 13 for each parameter in its turn.
fn walk(contents: &[u8], mut row: impl FnMut(usize, u8, usize)) -> Result<(), Fault> {
    let form = *contents.first().ok_or(Fault::Form)?;
    if !is_form(form) {
        return Err(Fault::Order);
    }
    row(0, form, 0);
    let mut met = 0;
    let mut offset = 1;
    while offset < contents.len() {
        let len = check_parameter(form, &contents[offset..], &mut met)
            .map_err(|fault| fault.behind(offset))?;
        row(offset, contents[offset], len);
        offset += 1 + len;
    }
    Ok(())
}

/// Tries 12, 13 and 19 on the contents.
pub(crate) fn check(contents: &[u8]) -> Result<(), Fault> {
    walk(contents, |_, _, _| ())
}

/// The rows of the message's connection order: first the form, with the offset
/// where the contents start and a length of 0; then the parameters, each with the
/// offset of its header in the message and all octets that follow it.
///
/// Refused are reading's 1 to 13, 18 and 19, then 16 at 0 if there is none.
pub fn order(message: &[u8]) -> Result<Vec<Row>, Refusal> {
    let contents = find_transfer(message, name_of(ORDER), 0)?;
    let start = contents.start;
    let mut rows = Vec::with_capacity(ORDER_ROW_LIMIT);
    // Reading has gone over them and found nothing wrong.
    walk(&message[contents], |offset, header, len| {
        rows.push(Row {
            offset: (start + offset) as u16,
            header,
            len: len as u16,
        });
    })
    .map_err(|fault| Refusal::placeless(fault.into()))?;
    Ok(rows)
}

/// Puts the rows of the message's connection order into the front of `table` and
/// gives their count. Rows past the last stay, and all where it is refused.
///
/// Refused is what [`order`] refuses, then 15 at 0 if the table is too short.
pub fn order_spans(message: &[u8], table: &mut [Row]) -> Result<usize, Refusal> {
    let rows = order(message)?;
    table
        .get_mut(..rows.len())
        .ok_or(Refusal::placeless(Refusal::ROOM_SHORT))?
        .copy_from_slice(&rows);
    Ok(rows.len())
}

#[cfg(test)]
mod tests {
    use super::*;

    /// A bad digit in the octet at this offset of the contents.
    const fn bad(at: usize) -> Fault {
        Fault::Digit { at }
    }

    /// The headers that may stand under a form.
    fn under(form: u8) -> Vec<u8> {
        let kinds = KINDS.iter().filter(|kind| kind.forms.contains(&form));
        kinds.map(|kind| kind.header).collect()
    }

    /// A form under which the header may stand.
    fn form_for(header: u8) -> u8 {
        let found = KINDS.iter().find(|kind| kind.header == header);
        found.expect("a listed header").forms[0]
    }

    /// The shortest sound octets behind a header.
    fn body(header: u8) -> &'static [u8] {
        match header {
            0x41 => &[0x00],
            0x42 => &[0x01, 0x00],
            0x43 => &[0x80],
            0x91 | 0xCB | 0xCE | 0xCF => &[0x00],
            0x92 => &[0x02, 0x00, 0x00],
            0xC9 | 0xCA | 0xCD => &[0x03, 0x00, 0x00, 0x03],
            0xCC => &[0x02, 0x00, 0x00],
            _ => b"000",
        }
    }

    /// What an order comes to whose only parameter has these octets.
    fn alone(header: u8, own: &[u8]) -> Result<(), Fault> {
        check(&[&[form_for(header), header], own].concat())
    }

    /// The answers to each of the octets in one place of a parameter.
    fn with_each(header: u8, own: &[u8], at: usize) -> Vec<Result<(), Fault>> {
        let answer = |octet| {
            let mut own = own.to_vec();
            own[at] = octet;
            alone(header, &own)
        };
        (0..=255).map(answer).collect()
    }

    /// The octets of a place to which the answer is this one.
    fn answered(answers: &[Result<(), Fault>], answer: Result<(), Fault>) -> Vec<u8> {
        (0..=255)
            .filter(|&o| answers[usize::from(o)] == answer)
            .collect()
    }

    /// A form is one under which some header may stand.
    #[test]
    fn every_form_alone() {
        assert_eq!(check(&[]), Err(Fault::Form));
        for form in 0..=255 {
            let listed = (!under(form).is_empty()).then_some(()).ok_or(Fault::Order);
            assert_eq!(check(&[form]), listed, "{form:02X}");
        }
    }

    #[test]
    fn all_headers_of_a_form_together() {
        let mut most = 0;
        for form in (0..=255).filter(|&form| is_form(form)) {
            let parameters: Vec<Vec<u8>> = under(form)
                .into_iter()
                .map(|header| [&[header], body(header)].concat())
                .collect();
            let order = |parameters: &[Vec<u8>]| [&[form], &parameters.concat()[..]].concat();
            let reversed: Vec<Vec<u8>> = parameters.iter().rev().cloned().collect();
            assert_eq!(check(&order(&parameters)), Ok(()));
            assert_eq!(check(&order(&reversed)), Ok(()));
            for again in &parameters {
                let repeated = [order(&parameters), again.clone()].concat();
                assert_eq!(
                    check(&repeated),
                    Err(Fault::Order),
                    "{form:02X} {again:02X?}"
                );
            }
            most = most.max(1 + parameters.len());
        }
        assert_eq!(most, ORDER_ROW_LIMIT);
    }

    /// Every sound parameter cut anywhere is of bad form; with an octet more, that
    /// octet is a header that there is not.
    #[test]
    fn cut_or_left_over() {
        let sound: [(u8, &[u8]); 13] = [
            (0x41, b"\x05"),
            (0x42, b"\x01\x02"),
            (0x43, b"\x81"),
            (0x91, b"\x03\x21\x0A"),
            (0x92, b"\x04\x81\x10\x21\x03"),
            (0xC9, b"\x05\x11\x0012\x03"),
            (0xCA, b"\x05\x11\x031;2"),
            (0xCB, b"\x03abc"),
            (0xCC, b"\x04\x01\x02ab"),
            (0xCD, b"\x03\x11\x02\x03"),
            (0xCE, b"\x01\xFF"),
            (0xCF, b"\x02\x00\x00"),
            (0xD2, b"123"),
        ];
        for (header, own) in sound {
            assert_eq!(alone(header, own), Ok(()), "{header:02X}");
            for len in 0..own.len() {
                assert_eq!(
                    alone(header, &own[..len]),
                    Err(Fault::Form),
                    "{header:02X} {len}"
                );
            }
            assert_eq!(alone(header, &[own, &[0x00]].concat()), Err(Fault::Order));
        }
    }

    #[test]
    fn single_octets() {
        assert_eq!(with_each(0x41, &[0], 0), [Ok(()); 256]);
        let marked = with_each(0x43, &[0], 0);
        assert_eq!(
            answered(&marked, Ok(())),
            (0x80..=0xFF).collect::<Vec<u8>>()
        );
        assert_eq!(
            answered(&marked, Err(Fault::Form)),
            (0x00..=0x7F).collect::<Vec<u8>>()
        );
        assert_eq!(with_each(0x42, &[1, 0], 1), [Ok(()); 256]);
        for len in (0..=255).filter(|&len| len != 1) {
            let own = [&[len], &vec![0x42; len.into()][..]].concat();
            assert_eq!(alone(0x42, &own), Err(Fault::Form), "{len}");
        }
    }

    /// A count of up to 255 half-octets.
    #[test]
    fn dialled_digits() {
        for count in 0..=255 {
            let mut own = vec![0x11; 1 + octets_for(count.into())];
            own[0] = count;
            if count % 2 == 1 {
                let last = own.len() - 1;
                assert_eq!(alone(0x91, &own), Err(bad(2 + last)), "{count}");
                own[last] = 0x01;
            }
            assert_eq!(alone(0x91, &own), Ok(()), "{count}");
            own.pop();
            assert_eq!(alone(0x91, &own), Err(Fault::Form), "{count}");
        }
        let two = with_each(0x91, &[2, 0], 1);
        let is_code = |code: u8| matches!(code, 1..=12);
        let sound = |octet: &u8| is_code(octet & 0x0F) && is_code(octet >> 4);
        assert_eq!(
            answered(&two, Ok(())),
            (0..=255).filter(sound).collect::<Vec<u8>>()
        );
        assert_eq!(answered(&two, Err(bad(3))).len(), 256 - 144);
        let one = with_each(0x91, &[1, 0], 1);
        assert_eq!(answered(&one, Ok(())), (1..=12).collect::<Vec<u8>>());
        assert_eq!(answered(&one, Err(bad(3))).len(), 256 - 12);
    }

    #[test]
    fn numbers() {
        assert_eq!(alone(0x92, &[0]), Err(Fault::Form));
        assert_eq!(alone(0x92, &[1, 0x00]), Err(Fault::Form));
        assert_eq!(alone(0x92, &[2, 0x7F, 0xF0]), Ok(()));
        assert_eq!(alone(0x92, &[2, 0x80, 0x00]), Err(Fault::Form));
        assert_eq!(alone(0x92, &[3, 0x80, 0x00, 0x00]), Ok(()));
        let second = with_each(0x92, &[2, 0, 0], 2);
        assert_eq!(
            answered(&second, Ok(())),
            (0..16).map(|high| high << 4).collect::<Vec<u8>>()
        );
        assert_eq!(answered(&second, Err(Fault::Form)).len(), 240);
        let even = with_each(0x92, &[4, 0x01, 0x10, 0x00, 0x99], 3);
        let sound = |octet: &u8| octet & 0x0F < 10 && octet >> 4 < 10;
        assert_eq!(
            answered(&even, Ok(())),
            (0..=255).filter(sound).collect::<Vec<u8>>()
        );
        assert_eq!(answered(&even, Err(bad(5))).len(), 156);
        let odd = with_each(0x92, &[4, 0x81, 0x10, 0x99, 0x00], 4);
        assert_eq!(answered(&odd, Ok(())), (0..10).collect::<Vec<u8>>());
        assert_eq!(answered(&odd, Err(bad(6))).len(), 246);
    }

    #[test]
    fn characters() {
        for header in [0xC9, 0xCA, 0xCD] {
            for len in 0..=2 {
                let own = [&[len], &vec![0x01; len.into()][..]].concat();
                assert_eq!(alone(header, &own), Err(Fault::Form), "{len}");
            }
            assert_eq!(with_each(header, &[3, 0, 0, b'0'], 1), [Ok(()); 256]);
            let repeat = with_each(header, &[3, 0, 0, b'0'], 2);
            assert_eq!(answered(&repeat, Ok(())), [0, 1, 2, 3]);
            assert_eq!(answered(&repeat, Err(Fault::Form)).len(), 252);
            for at in [3, 4, 5] {
                let character = with_each(header, &[5, 0, 0, b'0', b'0', b'0'], at);
                assert_eq!(answered(&character, Ok(())), b"\x030123456789;");
                assert_eq!(answered(&character, Err(bad(2 + at))).len(), 256 - 12);
            }
        }
    }

    #[test]
    fn keys() {
        assert_eq!(alone(0xCC, &[0]), Err(Fault::Form));
        assert_eq!(alone(0xCC, &[1, 0x00]), Err(Fault::Form));
        assert_eq!(with_each(0xCC, &[2, 0, 0], 1), [Ok(()); 256]);
        let repeat = with_each(0xCC, &[3, 0, 0, 0], 2);
        assert_eq!(answered(&repeat, Ok(())), [0, 1, 2, 3]);
        assert_eq!(answered(&repeat, Err(Fault::Form)).len(), 252);
        assert_eq!(with_each(0xCC, &[3, 0, 0, 0], 3), [Ok(()); 256]);
    }

    #[test]
    fn carried_of_any_length() {
        for header in [0xCB, 0xCE, 0xCF] {
            for len in 0..=255 {
                let own = [&[len], &vec![header; len.into()][..]].concat();
                assert_eq!(alone(header, &own), Ok(()));
            }
        }
    }

    #[test]
    fn times() {
        for at in 0..3 {
            let digit = with_each(0xD2, b"000", at);
            assert_eq!(answered(&digit, Ok(())), b"0123456789");
            assert_eq!(answered(&digit, Err(bad(2 + at))).len(), 246);
        }
    }

    /// The form before all else; then the first parameter that has a fault; in one
    /// parameter 19, 12, 13.
    #[test]
    fn the_first_fault_counts() {
        assert_eq!(check(b"\x43\x41"), Err(Fault::Order));
        assert_eq!(check(b"\x31\xD2///\x00"), Err(bad(2)));
        assert_eq!(check(b"\x31\xD2//"), Err(Fault::Form));
        assert_eq!(check(b"\x31\xD20/\x00\x00"), Err(bad(3)));
        assert_eq!(check(b"\x31\x00\xD2///"), Err(Fault::Order));
        assert_eq!(check(b"\x31\xC9\x03\x00\x04/\x00"), Err(Fault::Form));
        assert_eq!(check(b"\x31\xC9\x03\x00\x03/\x00"), Err(bad(5)));
        assert_eq!(check(b"\x31\x41\x01\x41"), Err(Fault::Order));
        assert_eq!(check(b"\x31\x42"), Err(Fault::Order));
        assert_eq!(check(b"\x31\x91\x01\x00"), Err(Fault::Order));
        assert_eq!(check(b"\x2E\x92\x03\x00\x01\xAA"), Err(Fault::Form));
        assert_eq!(check(b"\x2E\x92\x03\x00\x00\xAA\x92"), Err(bad(5)));
        assert_eq!(check(b"\x31\xD2000\xC9\x04\x00\x000/\x00"), Err(bad(10)));
    }
}
