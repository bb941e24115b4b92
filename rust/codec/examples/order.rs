//! Opens the connection order of a message, tells its form and parameters,
//! replaces it by a release, and meets a header that cannot stand under its form.

use codec::{Order, OrderHeader, OrderParameter, Refusal};

/// Form 31: ARE control while the call waits, 90 seconds at most, and when waiting
/// times out; a trunk.
const MESSAGE: [u8; 28] = *b"\x01\x01\x06\x12\xC5\x15\xE0\x13\x31\
    \xC9\x05\x11\x0012\x03\xCD\x03\x12\x02\x03\x41\x01\xD2180\x00";

/// What a parameter is to a reader.
fn text(parameter: &OrderParameter) -> String {
    let contents = parameter.contents();
    match (parameter.header, contents) {
        (OrderHeader::CallingAre | OrderHeader::TimeoutAre, [code, repeat, characters @ ..]) => {
            let characters = characters.escape_ascii();
            format!("code {code}, repeat {repeat}, {characters}")
        }
        (OrderHeader::WaitingTime, &[a, b, c]) => {
            let digits = [a, b, c].map(|digit| f32::from(digit - b'0'));
            let half_seconds = 100.0 * digits[0] + 10.0 * digits[1] + digits[2];
            format!("{} s", half_seconds / 2.0)
        }
        _ => format!("{contents:02X?}"),
    }
}

fn tell(order: &Order) {
    println!("form {:02X} at {}", order.form, order.offset);
    for parameter in &order.parameters {
        let OrderParameter { header, offset, .. } = parameter;
        println!("{header:?} at {offset}: {}", text(parameter));
    }
}

fn main() -> Result<(), Refusal> {
    tell(&codec::order(&MESSAGE)?);

    let mut buffer = MESSAGE;
    let release = [0xE0, 0x04, 0x28, 0x42, 0x01, 0x02];
    let len = codec::replace(&mut buffer, MESSAGE.len(), &release, 0)?;
    tell(&codec::order(&buffer[..len])?);

    match codec::replace(&mut buffer, len, &[0xE0, 0x03, 0x28, 0x41, 0x01], 0) {
        Ok(len) => println!("replaced, {len} octets"),
        Err(refusal) => println!("{refusal}"),
    }
    Ok(())
}
