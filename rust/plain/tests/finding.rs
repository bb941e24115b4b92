//! Finding, in the message M of the bench table.

mod support;

use plain::{find_common, find_transfer, Refusal};
use support::M;

const ABSENT: Refusal = Refusal::new(16, 0);

#[test]
fn common_contents() {
    assert_eq!(find_common(&M, 0x01), Ok(1..2));
    assert_eq!(find_common(&M, 0x83), Ok(3..6));
    assert_eq!(find_common(&M, 0xC5), Ok(12..22));
    for header in [0x00, 0x82, 0x90, 0x05] {
        assert_eq!(find_common(&M, header), Err(ABSENT));
    }
    assert_eq!(find_common(&M[..22], 0x01), Err(Refusal::new(4, 22)));
}

#[test]
fn transfer_contents() {
    assert_eq!(find_transfer(&M, 0x10, 0), Ok(13..16));
    assert_eq!(find_transfer(&M, 0x12, 0), Ok(17..18));
    for name in [0x00, 0x07, 0x0C, 0x50, 0x90] {
        assert_eq!(find_transfer(&M, name, 0), Err(ABSENT));
    }
    assert_eq!(find_transfer(&[1, 1, 6, 0x11, 0], 0x10, 0), Err(ABSENT));
    for which in [1, 2, 256, usize::MAX] {
        assert_eq!(find_transfer(&M, 0x10, which), Err(ABSENT));
    }
}
