//! Reads a message, tells the calling area, replaces the dialled digits, and
//! meets a refusal.

use codec::Refusal;

/// Own call 12345, area 1203, dialled digits 120.
const MESSAGE: [u8; 23] = [
    0x01, 0x01, 0x83, 0x39, 0x30, 0x00, 0x04, 0x01, 0x06, 0x11, 0xC5, 0x0A, 0x90, 0x04, 0x21, 0x3A,
    0x52, 0x81, 0x98, 0x03, 0x21, 0x0A, 0x00,
];

/// The names of the originating area and the dialled digits: the lower six bits
/// of the headers 90 and 98.
const AREA: u8 = 0x10;
const DIALLED: u8 = 0x18;

/// Digits as they are dialled.
fn text(digits: &[u8]) -> String {
    let signs = digits
        .iter()
        .map(|&digit| b"0123456789*#"[usize::from(digit)]);
    signs.map(char::from).collect()
}

fn main() -> Result<(), Refusal> {
    let record = codec::read(&MESSAGE)?;
    if let Some(area) = record.transfer(AREA) {
        println!("area {}", text(record.values_of(area)));
    }

    let mut buffer = MESSAGE;
    let len = codec::replace(&mut buffer, MESSAGE.len(), &[0x98, 0x02, 0x21], 0)?;
    println!("message {:02X?}", &buffer[..len]);
    let dialled = codec::find_transfer(&buffer[..len], DIALLED, 0)?;
    println!("dialled {dialled:02X?}");

    match codec::remove(&mut buffer, len, 0x17, 0) {
        Ok(len) => println!("removed, {len} octets are left"),
        Err(refusal) => println!("{refusal}"),
    }
    Ok(())
}
