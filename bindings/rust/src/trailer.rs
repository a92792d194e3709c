//! The trailer that an edit leaves at the end of an image, as far as it tells whose edit is the newest.

/// The bytes of a file without elements or slots, before any edit.
const SMALLEST: usize = 10;

/// A trailer, whose last eight bytes are the desk and `BAC2`.
const TRAILER: usize = 36;

/// A trailer from before they named a desk, whose last four bytes are `BACK`.
const OLD_TRAILER: usize = 32;

/// Gives the desk that made the newest edit that an image carries, and none where it carries none. For that desk alone
/// [`undo`](crate::undo) takes it back. An edit from before trailers named a desk is desk 0's.
///
/// The image is one that opens. Only its last bytes are looked at: [`undo`](crate::undo) judges the whole trailer, and refuses
/// a damaged one to every desk.
///
/// ```
/// # fn main() -> Result<(), hdf4::Error> {
/// let mut file = hdf4::File::new(b"\x0e\x03\x13\x01\0\0\0\0\0\0".to_vec())?;
/// assert_eq!(hdf4::newest_desk(file.bytes()), None);
/// file.add(2, 40000, 5, b"pass road closed")?;
/// assert_eq!(hdf4::newest_desk(file.bytes()), Some(2));
/// # Ok(())
/// # }
/// ```
pub fn newest_desk(image: &[u8]) -> Option<u32> {
    match *image {
        [.., a, b, c, d, b'B', b'A', b'C', b'2'] if image.len() >= SMALLEST + TRAILER => Some(u32::from_be_bytes([a, b, c, d])),
        [.., b'B', b'A', b'C', b'K'] if image.len() >= SMALLEST + OLD_TRAILER => Some(0),
        _ => None,
    }
}

#[cfg(test)]
mod tests {
    use super::*;

    #[test]
    fn the_last_bytes_tell_the_desk() {
        let ending = |length: usize, end: &[u8]| [&vec![0x2a; length - end.len()], end].concat();
        assert_eq!(newest_desk(&ending(46, b"\x01\x02\x03\x04BAC2")), Some(0x0102_0304));
        assert_eq!(newest_desk(&ending(45, b"\x01\x02\x03\x04BAC2")), None);
        assert_eq!(newest_desk(&ending(46, b"\xff\xff\xff\xffBAC2")), Some(u32::MAX));
        assert_eq!(newest_desk(&ending(42, b"\x01\x02\x03\x04BACK")), Some(0));
        assert_eq!(newest_desk(&ending(41, b"\x01\x02\x03\x04BACK")), None);
        assert_eq!(newest_desk(&ending(99, b"\x01\x02\x03\x04BAC3")), None);
        assert_eq!((newest_desk(b"BAC2"), newest_desk(b"BACK"), newest_desk(b"")), (None, None, None));
    }
}
