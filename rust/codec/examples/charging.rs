//! Opens the charging information of a message, tells its fields, replaces it by
//! an MBI, and meets a check digit that is wrong.

use codec::{Charging, Refusal};

/// The charging information is of kind 9: unit fee, initial units, how long a
/// unit lasts by day, by night and late at night, information interval, free
/// time.
const MESSAGE: [u8; 32] = *b"\x01\x01\x06\x11\xC5\x19\
    \xF7\x17\x00\x09\x0A01181240360360120010\x00";

/// A time in seconds.
fn seconds(half_seconds: u16) -> f32 {
    f32::from(half_seconds) / 2.0
}

fn tell(charging: &Charging) {
    println!("kind {}", charging.kind);
    println!("unit fee {} yen", charging.unit_fee);
    println!("initial units {}", charging.initial_units);
    println!("day {} s", seconds(charging.day));
    println!("night {} s", seconds(charging.night));
    println!("late night 1 {} s", seconds(charging.late_night_1));
    println!("late night 2 {} s", seconds(charging.late_night_2));
    let interval = seconds(charging.information_interval);
    println!("information interval {interval} s");
    println!("free time {} s", seconds(charging.free_time));
}

fn main() -> Result<(), Refusal> {
    tell(&codec::charging(&MESSAGE)?);

    let mut buffer = MESSAGE;
    let len = codec::replace(
        &mut buffer,
        MESSAGE.len(),
        &[0xF7, 0x04, 0x00, 0x05, 0x12, b'1'],
        0,
    )?;
    let charging = codec::charging(&buffer[..len])?;
    println!("kind {}, MBI {}", charging.kind, charging.mbi);

    match codec::replace(&mut buffer, len, &[0xF7, 0x04, 0x00, 0x05, 0x12, b'2'], 0) {
        Ok(len) => println!("replaced, {len} octets"),
        Err(refusal) => println!("{refusal}"),
    }
    Ok(())
}
