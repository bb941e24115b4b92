//! The refusal numbers have the same names here and in the header for C, and so
//! have the headers of a connection order, the networks and the added classes of
//! the mobile call profile, the directions and tags of the carriers, and the lengths
//! the same values; both lend as much room for an image, for the rows of an order and
//! of carriers, for the digits of a carrier's code and for the added classes as is
//! proved to suffice. The levels of carriers are those of the proved rows.

use codec::{AddedClassName, CarrierTag, DependentTag, Direction, Network, OrderHeader};
use std::collections::BTreeMap;

const HEADER: &str = include_str!("../../../include/tsurakemobu.h");

/// The names that stand between `before` and `after` in a line, by the number
/// that follows.
fn names<'t>(text: &'t str, before: &str, after: &str) -> BTreeMap<u8, &'t str> {
    let named = |line: &'t str| {
        let (name, rest) = line.trim().strip_prefix(before)?.split_once(after)?;
        let number = rest.split([',', ';', ' ']).next()?;
        Some((number.parse().ok()?, name))
    };
    text.lines().filter_map(named).collect()
}

#[test]
fn of_all_numbers() {
    let here = names(include_str!("../src/refusal.rs"), "pub const ", ": u8 = ");
    let mut header = names(HEADER, "TK_", " = ");
    assert_eq!(header.remove(&0), Some("ACCEPTED"));
    assert_eq!(here.len(), 20);
    assert_eq!(here, header);
}

/// What a line that starts with `before` goes on with, up to `after`.
fn line<'t>(text: &'t str, before: &str, after: char) -> &'t str {
    let rest = text.lines().find_map(|l| l.trim().strip_prefix(before));
    rest.and_then(|r| r.split(after).next()).expect(before)
}

/// A sum of products, or of quotients.
fn value(sum: &str) -> usize {
    let number = |n: &str| n.trim().parse::<usize>().expect(n);
    let quotient = |(whole, part)| number(whole) / number(part);
    let product = |p: &str| p.split('*').map(number).product();
    sum.split('+')
        .map(|p| p.split_once('/').map_or_else(|| product(p), quotient))
        .sum()
}

#[test]
fn of_the_longest_image() {
    let proved = include_str!("../../../crates/boundary/specs/SmallImages.antt");
    let proved = value(line(proved, "pub image_max : most_image ≡ ", '\n'));
    assert_eq!(value(line(HEADER, "#define TK_IMAGE_MAX (", ')')), proved);
    assert_eq!(codec::IMAGE_MAX, proved);
}

#[test]
fn of_the_most_rows_of_an_order() {
    let proved = include_str!("../../../crates/annex/specs/Opened.antt");
    let proved = value(line(proved, "most_order_rows = ", '\n'));
    let header = line(HEADER, "#define TK_ORDER_ROWS_MAX ", '\n');
    assert_eq!(value(header), proved);
    assert_eq!(codec::ORDER_ROWS_MAX, proved);
}

#[test]
fn of_the_most_carriers_their_rows_and_digits() {
    let proved = include_str!("../../../crates/annex/specs/Heads.antt");
    let carriers = value(line(proved, "most_carriers = ", '\n'));
    assert_eq!(
        value(line(HEADER, "#define TK_CARRIERS_MAX ", '\n')),
        carriers
    );
    assert_eq!(codec::CARRIERS_MAX, carriers);
    let proved = include_str!("../../../crates/annex/specs/Transit.antt");
    let rows = value(line(proved, "most_carrier_rows = ", '\n'));
    let header = line(HEADER, "#define TK_CARRIER_ROWS_MAX ", '\n');
    assert_eq!(value(header), rows);
    assert_eq!(codec::CARRIER_ROWS_MAX, rows);
    let digits = value(line(proved, "most_carrier_digits = ", '\n'));
    let header = line(HEADER, "#define TK_CARRIER_DIGITS_MAX (", ')');
    assert_eq!(value(header), digits);
    assert_eq!(codec::CARRIER_DIGITS_MAX, digits);
}

#[test]
fn of_the_most_octets_of_the_added_classes() {
    let proved = include_str!("../../../crates/boundary/specs/SmallProfile.antt");
    let proved = value(line(proved, "pub added_max : most_added ≡ ", '\n'));
    assert_eq!(value(line(HEADER, "#define TK_ADDED_MAX ", '\n')), proved);
    assert_eq!(codec::ADDED_MAX, proved);
}

#[test]
fn of_the_other_lengths() {
    let lengths = [
        ("TK_MESSAGE_MAX", codec::MESSAGE_MAX),
        ("TK_ROWS_MAX", codec::ROWS_MAX),
        ("TK_CHARGING_LEN", codec::CHARGING_LEN),
        ("TK_CARRIER_ROW_LEN", codec::CARRIER_ROW_LEN),
    ];
    for (name, here) in lengths {
        let told = line(HEADER, &format!("#define {name} "), '\n');
        assert_eq!(value(told), here, "{name}");
    }
}

/// The constants of C that begin so, in Rust's form: `TK_ORDER_CALLED_ARE = 0xCA`
/// is `CalledAre`, CA.
fn octets_named(before: &str) -> Vec<(String, u8)> {
    let word = |word: &str| word[..1].to_string() + &word[1..].to_lowercase();
    let named = |line: &str| {
        let (name, rest) = line.trim().strip_prefix(before)?.split_once(" = 0x")?;
        let octet = u8::from_str_radix(rest.get(..2)?, 16).ok()?;
        Some((name.split('_').map(word).collect(), octet))
    };
    HEADER.lines().filter_map(named).collect()
}

#[test]
fn of_the_headers_of_a_connection_order() {
    let here = OrderHeader::ALL.map(|header| (format!("{header:?}"), header.octet()));
    assert_eq!(octets_named("TK_ORDER_"), here);
}

#[test]
fn of_the_networks() {
    let here = Network::ALL.map(|network| (format!("{network:?}"), network.octet()));
    assert_eq!(octets_named("TK_NETWORK_"), here);
}

#[test]
fn of_the_directions_and_tags_of_carriers() {
    let here = Direction::ALL.map(|direction| (format!("{direction:?}"), direction.octet()));
    assert_eq!(octets_named("TK_DIRECTION_"), here);
    let here = CarrierTag::ALL.map(|tag| (format!("{tag:?}"), tag.octet()));
    assert_eq!(octets_named("TK_CARRIER_"), here);
    let here = DependentTag::ALL.map(|tag| (format!("{tag:?}"), tag.octet()));
    assert_eq!(octets_named("TK_DEPENDENT_"), here);
}

#[test]
fn of_the_levels_of_carriers() {
    let source = include_str!("../../../crates/annex/src/lib.rt");
    let (_, rows) = source
        .split_once("\nimpl CarrierRow {")
        .expect("CarrierRow");
    for name in ["DIRECTION", "CARRIER", "DEPENDENT"] {
        let proved = value(line(rows, &format!("pub const {name}: u8 = "), ';'));
        let told = line(HEADER, &format!("TK_LEVEL_{name} = 0x"), ' ');
        let told = usize::from_str_radix(told.trim_end_matches(','), 16);
        assert_eq!(told, Ok(proved), "{name}");
    }
}

#[test]
fn of_the_added_classes() {
    let here = AddedClassName::ALL.map(|name| (format!("{name:?}"), name.octet()));
    assert_eq!(octets_named("TK_ADDED_"), here);
}
