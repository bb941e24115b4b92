//! Contents of the charging information: sound ones of every rate kind, and
//! spoilt ones.

use crate::rng::Rng;

/// What stands right behind the kind.
#[derive(Clone, Copy, PartialEq, Eq)]
enum First {
    Digit,
    Mbi,
    UnitFee,
}

/// What the contents of a rate kind are.
#[derive(Clone, Copy)]
struct Form {
    kind: u8,
    first: First,
    /// How many digits there are, each a character.
    digits: usize,
    /// Whether a check digit follows them.
    checked: bool,
}

const fn form(kind: u8, first: First, digits: usize, checked: bool) -> Form {
    Form {
        kind,
        first,
        digits,
        checked,
    }
}

const FORMS: [Form; 8] = [
    form(1, First::Digit, 14, true),
    form(2, First::Digit, 0, false),
    form(3, First::Mbi, 6, true),
    form(4, First::Mbi, 7, true),
    form(5, First::Mbi, 0, true),
    form(8, First::UnitFee, 14, false),
    form(9, First::UnitFee, 20, false),
    form(10, First::UnitFee, 21, false),
];

/// Where the kind stands, and what is behind it.
const KIND: usize = 1;
const FIRST: usize = 2;

impl Form {
    /// How many characters there are.
    fn characters(self) -> usize {
        self.digits + usize::from(self.checked)
    }

    fn len(self) -> usize {
        FIRST + usize::from(self.first != First::Digit) + self.characters()
    }

    /// Sound contents of this kind.
    fn contents(self, rng: &mut Rng) -> Vec<u8> {
        let mut contents = vec![rng.octet(), self.kind];
        let mut sum = self.kind;
        match self.first {
            First::Digit => {}
            First::Mbi => {
                let (tens, ones) = (code(rng), code(rng));
                contents.push(tens << 4 | ones);
                sum += tens % 10 + ones % 10;
            }
            First::UnitFee => contents.push(unit_fee(rng)),
        }
        let alike = rng.one_in(8).then(|| rng.pick(&[0, 9]));
        for _ in 0..self.digits {
            let digit = alike.unwrap_or_else(|| rng.below(10) as u8);
            contents.push(b'0' + digit);
            sum += digit;
        }
        if self.checked {
            contents.push(b'0' + (19 - sum % 10) % 10);
        }
        contents
    }
}

/// A code of half an MBI.
fn code(rng: &mut Rng) -> u8 {
    match rng.below(3) {
        0 => rng.pick(&[1, 10]),
        _ => rng.between(1, 10) as u8,
    }
}

fn unit_fee(rng: &mut Rng) -> u8 {
    match rng.below(3) {
        0 => rng.pick(&[0, 1, 10, 15, 255]),
        _ => rng.octet(),
    }
}

/// One of the kinds that are as wanted.
fn any_form(rng: &mut Rng, wanted: impl Fn(&Form) -> bool) -> Form {
    let forms: Vec<Form> = FORMS.into_iter().filter(wanted).collect();
    rng.pick(&forms)
}

/// The octets of the shortest contents.
pub(crate) const SHORTEST: usize = FIRST;

/// Sound contents of at most so many octets, which are not fewer than
/// [`SHORTEST`].
pub(crate) fn sound(rng: &mut Rng, most: usize) -> Vec<u8> {
    any_form(rng, |form| form.len() <= most).contents(rng)
}

/// Contents of a kind that there is not, or not of their kind's length.
pub(crate) fn bad_form(rng: &mut Rng) -> Vec<u8> {
    let form = any_form(rng, |_| true);
    let mut contents = form.contents(rng);
    match rng.below(8) {
        0 => contents[KIND] = rng.pick(&[0, 6, 7, 11]),
        1 => contents[KIND] = rng.between(11, 255) as u8,
        2 => contents[KIND] = any_form(rng, |other| other.len() != form.len()).kind,
        3 => contents.truncate(rng.below(FIRST)),
        4 | 5 => {
            contents.pop();
        }
        _ => contents.push(b'0' + rng.below(10) as u8),
    }
    contents
}

/// Contents with a character that is no digit, half an MBI that is no code, or more
/// of them.
pub(crate) fn bad_digit(rng: &mut Rng) -> Vec<u8> {
    let form = any_form(rng, |form| form.characters() > 0);
    let mut contents = form.contents(rng);
    let (first, last) = (form.len() - form.characters(), form.len() - 1);
    for _ in 0..rng.pick(&[1, 1, 1, 2]) {
        if form.first == First::Mbi && rng.one_in(2) {
            contents[FIRST] = bad_halves(rng);
        } else {
            contents[rng.towards(first, last)] = no_digit(rng);
        }
    }
    contents
}

/// An octet of which one half is no code, or both.
fn bad_halves(rng: &mut Rng) -> u8 {
    let bad = rng.pick(&[0, 0, 11, 11, 12, 15]);
    match rng.below(5) {
        0 | 1 => bad << 4 | code(rng),
        2 | 3 => code(rng) << 4 | bad,
        _ => bad << 4 | bad,
    }
}

/// An octet that is no digit's character.
fn no_digit(rng: &mut Rng) -> u8 {
    let octet = match rng.below(6) {
        0 | 1 => b'0' - 1,
        2 | 3 => b'9' + 1,
        4 => rng.below(10) as u8,
        _ => rng.octet(),
    };
    match octet.is_ascii_digit() {
        true => octet | 0x80,
        false => octet,
    }
}

/// Contents that are sound but for one character, by which the check digit is
/// wrong.
pub(crate) fn wrong_check_digit(rng: &mut Rng) -> Vec<u8> {
    let form = any_form(rng, |form| form.checked);
    let mut contents = form.contents(rng);
    let last = form.len() - 1;
    let at = match rng.below(4) {
        0 => last - rng.below(form.characters()),
        _ => last,
    };
    let more = rng.pick(&[1, 1, 2, 5, 9, 9]);
    contents[at] = b'0' + (contents[at] - b'0' + more) % 10;
    contents
}

/// Contents with a bad digit, and something else that is wrong.
pub(crate) fn twofold(rng: &mut Rng) -> Vec<u8> {
    let mut contents = bad_digit(rng);
    let last = contents.len() - 1;
    match rng.below(4) {
        0 => contents[KIND] = rng.pick(&[0, 6, 7, 11]),
        1 => contents.push(b'0'),
        2 => {
            contents.pop();
        }
        _ => contents[last] ^= 1,
    }
    contents
}
