//! Reads a call enquiry by the mobile call profile, tells the network and the added
//! classes, writes it with another value of a class, and meets a message that is
//! not in the profile.

use codec::{AddedClass, AddedClassName, Refusal};

/// Dialled digits 120, from a mobile network; the added classes tell a mobile
/// telephone, by PDC at 800 MHz.
const MESSAGE: [u8; 24] = [
    0x01, 0x01, 0x06, 0x11, 0xC5, 0x11, 0x98, 0x03, 0x21, 0x0A, 0x7E, 0x03, 0xD6, 0x04, 0xFD, 0x01,
    0xFC, 0x03, 0xFD, 0x03, 0x04, 0x21, 0x43, 0x00,
];

/// The header of the added classes, and the name of the originating region, the
/// lower six bits of its header FD.
const ADDED_CLASSES: u8 = 0xD6;
const ORIGINATING_REGION: u8 = 0x3D;

fn tell(classes: &[AddedClass]) {
    for AddedClass { name, value } in classes {
        println!("{name:?} {value:02X}");
    }
}

fn main() -> Result<(), Refusal> {
    let profile = codec::profile_read(&MESSAGE)?;
    println!("network {:?}", profile.network);
    tell(profile.added.as_deref().unwrap_or_default());

    let mut record = profile.record;
    let (service, system) = (AddedClassName::Mobile1, AddedClassName::Mobile2);
    let values = record.hold(&[service.octet(), 0x01, system.octet(), 0x08]);
    let mut transfers = record.common.iter_mut().flat_map(|c| &mut c.transfers);
    if let Some(added) = transfers.find(|t| t.header == ADDED_CLASSES) {
        added.values = values;
    }
    let mut message = codec::profile_write_to_vec(&record)?;
    println!("message {message:02X?}");
    tell(&codec::added_classes(&message)?);

    let n = message.len();
    let n = codec::remove(&mut message, n, ORIGINATING_REGION, 0)?;
    match codec::profile_read(&message[..n]) {
        Ok(profile) => println!("network {:?}", profile.network),
        Err(refusal) => println!("{refusal}"),
    }
    Ok(())
}
