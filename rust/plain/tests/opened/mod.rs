//! What the tests of the parameters that are opened share.

use crate::support::{octets, record, transfer};
use plain::{append, replace, write, Refusal};

/// K with this parameter, and its end mark.
pub fn message(parameter: &str) -> Vec<u8> {
    let parameter = octets(parameter);
    let head = [0x01, 0x01, 0x06, 0x11, 0xC5, parameter.len() as u8];
    [&head, &parameter[..], &[0x00]].concat()
}

/// The message that is written of a record of K and a parameter with these
/// contents.
pub fn written(header: u8, contents: &[u8]) -> Result<Vec<u8>, Refusal> {
    let common = [(0x01, 1), (0x06, 0x11), (0xC5, 0)];
    let mut room = [0; 272];
    let len = write(&record(&common, &[(transfer(header), contents)]), &mut room)?;
    Ok(room[..len].to_vec())
}

/// K with this parameter before a CE that fills the transfer data up.
fn full(parameter: &str) -> Vec<u8> {
    let parameter = octets(parameter);
    let left = 255 - parameter.len() - 2;
    let head = octets("01 01 06 11 C5 FF");
    let carried = [&[0xCE, left as u8], &vec![0x00; left][..]].concat();
    [&head, &parameter, &carried, &[0x00][..]].concat()
}

/// Asserts that edits refuse each faulty parameter with its number at 0, and the
/// sound one, which has no room in the transfer data, with 14: that comes behind
/// all of them. They replace `old`.
pub fn edits_refuse_at_0(faulty: &[(&str, u8)], sound: &str, old: &str) {
    for &(new, number) in faulty.iter().chain(&[(sound, 14)]) {
        let refused = Err(Refusal::new(number, 0));
        let (mut without, mut with) = (full(""), full(old));
        let n = without.len();
        assert_eq!(append(&mut without, n, &octets(new)), refused);
        assert_eq!(replace(&mut with, n, &octets(new), 0), refused);
    }
}
