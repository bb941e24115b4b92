//! Contents of the connection order: sound ones of every form, and spoilt ones.

use crate::parameters::{codes, count, packed, spoil, with_filler};
use crate::parameters::{DIALLED_CODES, DIALLED_SPARE};
use crate::rng::Rng;

/// The forms, each with the headers that may stand under it.
pub const FORMS: [(u8, &[u8]); 33] = [
    (0x21, &[0x91]),
    (0x22, &[0x91, 0xC9, 0xCA]),
    (0x23, &[0x41]),
    (0x24, &[0xC9]),
    (0x25, &[0x91, 0xC9, 0xCA]),
    (0x26, &[0x91, 0xC9, 0xCA]),
    (0x27, &[0xC9]),
    (0x28, &[0x42]),
    (0x29, &[0xC9]),
    (0x2B, &[0x41, 0x91, 0xC9]),
    (0x2C, &[0x91, 0xC9, 0xCC]),
    (0x2D, &[0x91, 0xC9]),
    (0x2E, &[0x43, 0x92]),
    (0x31, &[0x41, 0xC9, 0xCD, 0xD2]),
    (0x32, &[0x91]),
    (0x33, &[0x91, 0xC9, 0xCA]),
    (0x34, &[0x91, 0xC9, 0xCC]),
    (0x35, &[0x91, 0xC9, 0xCA]),
    (0x36, &[0xC9]),
    (0x37, &[0x91, 0xCB, 0xCE]),
    (0x38, &[0xCB]),
    (0x39, &[0x91, 0xCB, 0xCE]),
    (0x3A, &[0x91, 0xCB, 0xCE]),
    (0x3B, &[0xCB]),
    (0x3C, &[0x91, 0xCB, 0xCE]),
    (0x3D, &[0x41, 0xCB, 0xCF, 0xD2]),
    (0x3E, &[0x91, 0xCB, 0xCE]),
    (0x3F, &[0x91, 0xCB, 0xCE]),
    (0x41, &[0x91, 0xCB, 0xCE]),
    (0x42, &[0xCB]),
    (0x44, &[0xCB]),
    (0x46, &[0x41, 0x91, 0xCB]),
    (0x47, &[0x91, 0xCB]),
];

/// The headers of an order's parameters.
pub const HEADERS: [u8; 13] = [
    0x41, 0x42, 0x43, 0x91, 0x92, 0xC9, 0xCA, 0xCB, 0xCC, 0xCD, 0xCE, 0xCF, 0xD2,
];

/// The most octets of contents that a length octet can tell.
const MOST: usize = 255;

/// The octets of the shortest contents.
pub(crate) const SHORTEST: usize = 1;

/// The octets of the shortest parameter with this header.
fn shortest(header: u8) -> usize {
    match header {
        0x42 => 3,
        0x92 | 0xCC | 0xD2 => 4,
        0xC9 | 0xCA | 0xCD => 5,
        _ => 2,
    }
}

/// The headers of parameters with digits or characters.
const WITH_DIGITS: [u8; 6] = [0x91, 0x92, 0xC9, 0xCA, 0xCD, 0xD2];

/// The codes of digits in 92, and those that are none.
const NUMBER_CODES: [u8; 10] = [0, 1, 2, 3, 4, 5, 6, 7, 8, 9];
const NUMBER_SPARE: [u8; 6] = [10, 11, 12, 13, 14, 15];

/// A parameter with a length octet.
fn counted(header: u8, octets: &[u8]) -> Vec<u8> {
    [&[header, octets.len() as u8], octets].concat()
}

/// A sound parameter with `spare` octets at most beyond the shortest.
fn parameter(rng: &mut Rng, header: u8, spare: usize) -> Vec<u8> {
    match header {
        0x41 => vec![header, rng.octet()],
        0x42 => counted(header, &[rng.octet()]),
        0x43 => vec![header, 0x80 | rng.octet()],
        0x91 => {
            let most = (2 * spare).min(255);
            let len = match rng.below(8) {
                0 => most,
                _ => count(rng, most),
            };
            dialled(&codes(rng, &DIALLED_CODES, len))
        }
        0x92 => {
            let len = count(rng, 2 * spare);
            let codes = codes(rng, &NUMBER_CODES, len);
            number(rng, &codes)
        }
        0xC9 | 0xCA | 0xCD => {
            let len = 1 + count(rng, spare);
            let characters: Vec<u8> = (0..len).map(|_| character(rng)).collect();
            repeated(rng, header, &characters)
        }
        0xD2 => vec![header, digit(rng), digit(rng), digit(rng)],
        _ => {
            let len = count(rng, spare);
            let carried = rng.octets(len);
            match header {
                0xCC => repeated(rng, header, &carried),
                _ => counted(header, &carried),
            }
        }
    }
}

/// 91 with these codes.
fn dialled(codes: &[u8]) -> Vec<u8> {
    [&[0x91, codes.len() as u8], &packed(codes)[..]].concat()
}

/// 92 with these codes.
fn number(rng: &mut Rng, codes: &[u8]) -> Vec<u8> {
    let odd = (codes.len() as u8 & 1) << 7;
    let fields = [odd | rng.octet() & 0x7F, rng.octet() & 0xF0];
    counted(0x92, &[&fields, &packed(codes)[..]].concat())
}

/// A parameter with any code or kind, a repeat count, and then these octets.
fn repeated(rng: &mut Rng, header: u8, behind: &[u8]) -> Vec<u8> {
    let head = [rng.octet(), rng.octet() & 0x03];
    counted(header, &[&head, behind].concat())
}

fn digit(rng: &mut Rng) -> u8 {
    match rng.below(4) {
        0 => rng.pick(b"09"),
        _ => b'0' + rng.below(10) as u8,
    }
}

fn character(rng: &mut Rng) -> u8 {
    match rng.below(3) {
        0 => rng.pick(&[0x03, b';']),
        _ => digit(rng),
    }
}

/// Sound contents of at most so many octets, which are not fewer than
/// [`SHORTEST`].
pub(crate) fn sound(rng: &mut Rng, most: usize) -> Vec<u8> {
    let (form, headers) = rng.pick(&FORMS);
    let most = most.min(MOST);
    let mut contents = vec![form];
    for parameter in parameters(rng, headers, most) {
        if contents.len() + parameter.len() <= most {
            contents.extend(parameter);
        }
    }
    contents
}

/// How many octets beyond the shortest a parameter among spoilt ones has at most.
const FEW: usize = 40;

/// Sound parameters with some of these headers, or all, in any order, with `spare`
/// octets at most beyond the shortest.
fn parameters(rng: &mut Rng, headers: &[u8], spare: usize) -> Vec<Vec<u8>> {
    let mut headers = headers.to_vec();
    rng.shuffle(&mut headers);
    if rng.below(3) > 0 {
        headers.truncate(rng.between(0, headers.len()));
    }
    let mut parameters = Vec::new();
    for header in headers {
        let spare = rng.pick(&[0, 2, 4, 8, spare]);
        parameters.push(parameter(rng, header, spare));
    }
    parameters
}

/// A form under which the header may stand, with its headers.
fn form_for(rng: &mut Rng, header: u8) -> (u8, &'static [u8]) {
    let forms: Vec<_> = FORMS
        .into_iter()
        .filter(|(_, under)| under.contains(&header))
        .collect();
    rng.pick(&forms)
}

/// Contents with this parameter, under a form under which its header may stand,
/// with sound ones before it and, unless it is to be the last, behind it.
fn among_others(rng: &mut Rng, parameter: &[u8], is_last: bool) -> Vec<u8> {
    let (form, under) = form_for(rng, parameter[0]);
    let mut others = under.to_vec();
    others.retain(|header| *header != parameter[0]);
    let mut all = parameters(rng, &others, FEW);
    let at = match is_last {
        true => all.len(),
        false => rng.between(0, all.len()),
    };
    all.insert(at, parameter.to_vec());
    [&[form], &all.concat()[..]].concat()
}

/// Contents without a form, or with a parameter that is cut, or whose length, mark
/// or repeat count is wrong.
pub(crate) fn bad_form(rng: &mut Rng) -> Vec<u8> {
    match rng.below(12) {
        0 => vec![],
        1..=4 => {
            let mut parameter = stray(rng, |_| true);
            let keep = match rng.below(2) {
                0 => parameter.len() - 1,
                _ => rng.between(1, parameter.len() - 1),
            };
            parameter.truncate(keep);
            among_others(rng, &parameter, true)
        }
        _ => {
            let header = rng.pick(&[0x42, 0x43, 0x92, 0xC9, 0xCA, 0xCC, 0xCD]);
            let parameter = badly_formed(rng, header);
            among_others(rng, &parameter, false)
        }
    }
}

/// A parameter with this header that has all its octets, and is of bad form.
fn badly_formed(rng: &mut Rng, header: u8) -> Vec<u8> {
    let mut octets = parameter(rng, header, 4);
    match header {
        0x42 => {
            let len = rng.pick(&[0, 0, 2, 2, 3, 100]);
            counted(header, &rng.octets(len))
        }
        0x43 => {
            octets[1] &= 0x7F;
            octets
        }
        0x92 => match rng.below(4) {
            0 => {
                octets[3] |= rng.bit_of(0x0F);
                octets
            }
            1 => counted(header, &[0x80 | rng.octet(), rng.octet() & 0xF0]),
            _ => {
                let len = rng.below(2);
                counted(header, &rng.octets(len))
            }
        },
        _ if rng.one_in(2) => {
            octets[3] = rng.pick(&[4, 4, 4, 5, 0x83, 0xFF]);
            octets
        }
        _ => {
            let len = rng.between(0, shortest(header) - 3);
            let mut octets = rng.octets(len);
            if let Some(repeat) = octets.get_mut(1) {
                *repeat &= 0x03;
            }
            counted(header, &octets)
        }
    }
}

/// Contents with a digit, a filler or a character that is wrong, or with two.
pub(crate) fn bad_digit(rng: &mut Rng) -> Vec<u8> {
    let parameter = match rng.pick(&WITH_DIGITS) {
        0x91 => {
            let len = rng.pick(&[1, 1, 2, 3, 5, 8, 60]);
            let mut codes = codes(rng, &DIALLED_CODES, len);
            let filler = spoil(rng, &mut codes, &DIALLED_SPARE);
            with_filler(dialled(&codes), filler)
        }
        0x92 => {
            let len = rng.pick(&[1, 1, 2, 3, 5, 8]);
            let mut codes = codes(rng, &NUMBER_CODES, len);
            let filler = spoil(rng, &mut codes, &NUMBER_SPARE);
            with_filler(number(rng, &codes), filler)
        }
        0xD2 => {
            let mut parameter = parameter(rng, 0xD2, 0);
            for _ in 0..rng.pick(&[1, 1, 2]) {
                parameter[rng.between(1, 3)] = no_digit(rng);
            }
            parameter
        }
        header => {
            let mut parameter = parameter(rng, header, 4);
            let (first, last) = (shortest(header) - 1, parameter.len() - 1);
            for _ in 0..rng.pick(&[1, 1, 2]) {
                parameter[rng.towards(first, last)] = no_character(rng);
            }
            parameter
        }
    };
    among_others(rng, &parameter, false)
}

/// An octet that is no digit.
fn no_digit(rng: &mut Rng) -> u8 {
    match rng.below(6) {
        0 | 1 => b'0' - 1,
        2 | 3 => b'9' + 1,
        4 => rng.pick(&[0x03, b';']),
        _ => rng.octet() | 0x80,
    }
}

/// An octet that is no character.
fn no_character(rng: &mut Rng) -> u8 {
    match rng.below(5) {
        0 => rng.octet() | 0x80,
        _ => rng.pick(&[b'0' - 1, b'9' + 1, b';' + 1, 0x02, 0x04]),
    }
}

/// Contents of a form that there is not, or with a header that there is not, that
/// is not under the form, or that stands there already.
pub(crate) fn not_ordered(rng: &mut Rng) -> Vec<u8> {
    let (mut form, under) = rng.pick(&FORMS);
    let mut all = parameters(rng, under, FEW);
    match rng.below(9) {
        0 | 1 => form = no_form(rng),
        2 | 3 => {
            let mut unlisted = stray(rng, |_| true);
            unlisted[0] = no_header(rng);
            insert(rng, &mut all, unlisted);
        }
        4..=6 => {
            let stranger = stray(rng, |header| !under.contains(&header));
            insert(rng, &mut all, stranger);
        }
        _ => return repeating(rng),
    }
    [&[form], &all.concat()[..]].concat()
}

/// Contents in which one header stands twice.
fn repeating(rng: &mut Rng) -> Vec<u8> {
    let header = rng.pick(&HEADERS);
    let (form, under) = form_for(rng, header);
    let mut all = parameters(rng, under, FEW);
    all.retain(|parameter| parameter[0] != header);
    for _ in 0..2 {
        let again = parameter(rng, header, 4);
        insert(rng, &mut all, again);
    }
    [&[form], &all.concat()[..]].concat()
}

/// A sound parameter with one of the headers that are wanted.
fn stray(rng: &mut Rng, wanted: impl Fn(u8) -> bool) -> Vec<u8> {
    let headers: Vec<u8> = HEADERS.into_iter().filter(|&h| wanted(h)).collect();
    let header = rng.pick(&headers);
    parameter(rng, header, 4)
}

/// Puts a parameter anywhere among the others.
fn insert(rng: &mut Rng, all: &mut Vec<Vec<u8>>, parameter: Vec<u8>) {
    let at = rng.between(0, all.len());
    all.insert(at, parameter);
}

/// An octet that is no form, as a rule one beside a form; 43 more often, which the
/// annex lists.
fn no_form(rng: &mut Rng) -> u8 {
    const BESIDE: [u8; 9] = [0x20, 0x2A, 0x2F, 0x30, 0x40, 0x43, 0x45, 0x48, 0x43];
    match rng.octet() {
        octet if rng.one_in(3) && FORMS.iter().all(|(form, _)| *form != octet) => octet,
        _ => rng.pick(&BESIDE),
    }
}

/// An octet that is no header, as a rule one beside a header; D3 more often, which
/// the annex lists.
fn no_header(rng: &mut Rng) -> u8 {
    const BESIDE: [u8; 9] = [0x40, 0x44, 0x90, 0x93, 0xC8, 0xD0, 0xD1, 0xD3, 0xD3];
    match rng.octet() {
        octet if rng.one_in(3) && !HEADERS.contains(&octet) => octet,
        _ => rng.pick(&BESIDE),
    }
}

/// Contents with a bad digit, and something else that may be wrong.
pub(crate) fn twofold(rng: &mut Rng) -> Vec<u8> {
    let mut contents = bad_digit(rng);
    match rng.below(5) {
        0 => contents[0] = no_form(rng),
        1 => contents[1] = no_header(rng),
        2 => {
            let keep = rng.between(1, contents.len() - 1);
            contents.truncate(keep);
        }
        3 => contents.push(no_header(rng)),
        _ => {
            let at = rng.below(contents.len());
            contents[at] = rng.octet();
        }
    }
    contents
}
