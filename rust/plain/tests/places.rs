//! The place of 13: in reading that of the octet which holds the first bad half or
//! character, in writing that of the header, and 0 for the new parameter of an edit.

mod opened;
mod support;

use opened::{edits_refuse_at_0, message, written};
use plain::{append, carrier_digits, carrier_spans, carriers, charging, find_common};
use plain::{find_transfer, order, order_spans, read, remove, replace, rows, spans};
use plain::{verdict, Refusal};
use support::octets;

/// Parameters, and how far behind the header the first bad half or character is.
const BAD: [(&str, usize); 40] = [
    // Under PLI 10: the low half, the high half, both; a digit, the filler, both.
    ("90 01 00", 2),
    ("90 04 21 D1", 3),
    ("91 04 F1 21", 2),
    ("95 04 21 EE", 3),
    ("98 03 21 1A", 3),
    ("98 03 21 1F", 3),
    ("98 03 01 1A", 2),
    ("98 05 2D 10 00", 2),
    ("A3 03 21 10", 3),
    // D7, DC, DA with 06.
    ("D7 04 03 11 21 A3", 5),
    ("D7 04 83 11 21 10", 5),
    ("D7 05 83 11 0A 21 1A", 4),
    ("DC 03 03 11 2D", 4),
    ("DC 04 83 04 21 F1", 5),
    ("DA 04 06 03 11 E0", 5),
    ("DA 05 06 83 11 21 1A", 6),
    // F7: the MBI's tens, ones, both; a character, the check digit, both.
    ("F7 04 00 05 02 31", 4),
    ("F7 04 00 05 1B 31", 4),
    ("F7 04 00 05 00 3A", 4),
    (
        "F7 11 00 01 2F 32 33 34 35 36 37 38 39 30 31 32 33 34 3A",
        4,
    ),
    ("F7 0A 00 03 1A 32 33 3A 30 35 36 35", 7),
    ("F7 0B 00 04 A7 31 32 30 39 38 30 30 2F", 12),
    (
        "F7 11 00 08 0A 30 31 31 38 30 32 34 30 33 36 30 39 39 00",
        18,
    ),
    (
        "F7 11 00 08 FF 30 31 31 38 30 32 34 30 33 36 30 39 39 3A",
        18,
    ),
    // E0: digits, a filler, characters, behind others and in two parameters.
    ("E0 05 21 91 03 20 0A", 5),
    ("E0 05 21 91 03 21 1A", 6),
    ("E0 07 2E 92 04 01 10 21 B3", 8),
    ("E0 07 2E 92 04 81 10 21 13", 8),
    ("E0 09 2E 43 80 92 04 81 10 A1 13", 9),
    ("E0 07 24 C9 04 11 00 30 3C", 8),
    ("E0 09 22 91 00 CA 04 11 00 02 30", 9),
    ("E0 06 31 CD 03 11 02 04", 7),
    ("E0 05 3D D2 31 38 03", 6),
    ("E0 09 31 D2 31 2F 30 C9 03 11 00", 5),
    // CC: the low half, the high half, a digit and the filler; behind other entries,
    // and in two codes.
    ("CC 07 01 FA 04 FE 02 00 0A", 8),
    ("CC 08 01 FA 05 FE 03 00 21 A3", 9),
    ("CC 08 01 FA 05 FE 03 80 21 13", 9),
    ("CC 08 00 FA 05 FE 03 80 F1 1A", 8),
    ("CC 0B 02 F8 00 FA 06 FC 00 FE 02 80 0F", 12),
    ("CC 0F 02 FE 04 FE 02 80 01 FB 04 FE 02 80 1F F8 00", 14),
];

/// The refusals of all calls that read the message.
fn refusals(message: &[u8]) -> [Option<Refusal>; 15] {
    let n = message.len();
    let edited = |edit: fn(&mut [u8], usize) -> Result<usize, Refusal>| {
        let mut buffer = message.to_vec();
        let refusal = edit(&mut buffer, n).err();
        assert_eq!(buffer, message);
        refusal
    };
    [
        verdict(message).err(),
        read(message).err(),
        rows(message).err(),
        spans(message, &mut []).err(),
        find_common(message, 0x01).err(),
        find_transfer(message, 0x02, 0).err(),
        charging(message).err(),
        order(message).err(),
        order_spans(message, &mut []).err(),
        carriers(message, 0).err(),
        carrier_spans(message, 0, &mut []).err(),
        carrier_digits(message, 0, 0).err(),
        edited(|buffer, n| replace(buffer, n, &[0x42, 0x01], 0)),
        edited(|buffer, n| append(buffer, n, &[])),
        edited(|buffer, n| remove(buffer, n, 0x02, 0)),
    ]
}

#[test]
fn read_with_the_place_of_the_octet() {
    for (parameter, behind) in BAD {
        for (before, header) in [("", 6), ("42 00", 8), ("91 03 21 0A", 10)] {
            if before.get(..2) == parameter.get(..2) {
                continue;
            }
            let message = message(&format!("{before} {parameter} 46 00"));
            let refused = Refusal::new(13, header + behind);
            assert_eq!(refusals(&message), [Some(refused); 15], "{parameter}");
        }
    }
}

/// F7, E0 and CC are held as their contents; of the others a digit that is too large
/// stands for a spare one.
#[test]
fn written_with_the_place_of_the_header() {
    for (parameter, _) in BAD {
        let parameter = octets(parameter);
        let values = match parameter[0] {
            0xF7 | 0xE0 | 0xCC => parameter[2..].to_vec(),
            0xDA => vec![0x06, 1, 2, 12],
            _ => vec![1, 2, 12],
        };
        let refused = Err(Refusal::new(13, 6));
        assert_eq!(written(parameter[0], &values), refused);
    }
}

/// A sound parameter with this header, and a longer one.
fn sound(header: &str) -> [String; 2] {
    let contents = match header {
        "D7" | "DC" => ["02 00 00", "03 00 00 11"],
        "DA" => ["01 00", "02 00 00"],
        "F7" => ["02 00 02", "04 00 05 12 31"],
        "E0" => ["01 28", "04 28 42 01 02"],
        "CC" => ["01 00", "03 00 F8 00"],
        _ => ["00", "01 01"],
    };
    contents.map(|contents| format!("{header} {contents}"))
}

#[test]
fn edits_refuse_the_new_one_at_0() {
    for (parameter, _) in BAD {
        let [old, longer] = sound(&parameter[..2]);
        edits_refuse_at_0(&[(parameter, 13)], &longer, &old);
    }
}
