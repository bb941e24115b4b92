//! Opens the carriers of a message, which stand there twice, tells their entries,
//! replaces the second ones and removes the first, and meets a digit that is none.

use codec::{Carriers, DependentContents, Refusal, CARRIERS_MAX};

/// Forward: the originating carrier with its code and its POI's stage, and the selected
/// transit carrier; then a carrier on the route.
const MESSAGE: [u8; 38] = [
    0x01, 0x01, 0x06, 0x11, 0xC5, 0x1F, 0xCC, 0x13, 0x01, 0xFB, 0x08, 0xFE, 0x03, 0x00, 0x00, 0x77,
    0xFC, 0x01, 0x02, 0xFD, 0x06, 0xFE, 0x04, 0x80, 0x00, 0x88, 0x01, 0xCC, 0x08, 0x00, 0xFE, 0x05,
    0xFE, 0x03, 0x00, 0x00, 0x33, 0x00,
];

/// The name of the carriers, the lower six bits of their header CC.
const CARRIERS: u8 = 0x0C;

/// What a dependent entry is to a reader.
fn text(contents: &DependentContents) -> String {
    match contents {
        DependentContents::Code(digits) => {
            let digits = digits.iter().map(|&digit| char::from(b'0' + digit));
            format!("code {}", digits.collect::<String>())
        }
        DependentContents::PoiStage(octets) => format!("POI stage {octets:02X?}"),
        DependentContents::PoiArea(octets) => format!("POI charging area {octets:02X?}"),
    }
}

fn tell(carriers: &Carriers) {
    println!("{:?} at {}", carriers.direction, carriers.offset);
    for carrier in &carriers.entries {
        println!("  {:?} at {}", carrier.tag, carrier.offset);
        for dependent in &carrier.dependents {
            println!("    {} at {}", text(&dependent.contents), dependent.offset);
        }
    }
}

/// Tells all carriers of a message.
fn tell_all(message: &[u8]) -> Result<(), Refusal> {
    for which in 0..CARRIERS_MAX {
        match codec::carriers(message, which) {
            Ok(carriers) => tell(&carriers),
            Err(refusal) if refusal.number == Refusal::ABSENT => break,
            Err(refusal) => return Err(refusal),
        }
    }
    Ok(())
}

fn main() -> Result<(), Refusal> {
    tell_all(&MESSAGE)?;

    let mut buffer = MESSAGE;
    let route = [0xCC, 0x07, 0x03, 0xFE, 0x04, 0xFE, 0x02, 0x80, 0x07];
    let len = codec::replace(&mut buffer, MESSAGE.len(), &route, 1)?;
    let len = codec::remove(&mut buffer, len, CARRIERS, 0)?;
    println!("message {:02X?}", &buffer[..len]);
    tell_all(&buffer[..len])?;

    let spare = [0xCC, 0x07, 0x03, 0xFE, 0x04, 0xFE, 0x02, 0x80, 0x0A];
    match codec::replace(&mut buffer, len, &spare, 0) {
        Ok(len) => println!("replaced, {len} octets"),
        Err(refusal) => println!("{refusal}"),
    }
    Ok(())
}
