use crate::calls;

/// The CRC-32 of ITU-T H.222.0, of any bytes: polynomial 0x04C11DB7, register all ones at the start, nothing reflected or inverted. Bytes that end in
/// their own CRC, highest byte first, have the CRC 0; so have bytes 4 to 187 of an accepted header.
///
/// ```
/// use gvozdyana::header::{write, Header};
/// use gvozdyana::crc32;
///
/// assert_eq!(crc32(b"123456789"), 0x0376_E6E7);
/// assert_eq!(crc32(&[]), 0xFFFF_FFFF);
/// let header = write(&Header::default())?;
/// assert_eq!(crc32(&header[4..]), 0);
/// assert_eq!(crc32(&header[4..184]).to_be_bytes(), header[184..]);
/// # Ok::<(), gvozdyana::Refusal>(())
/// ```
pub fn crc32(bytes: &[u8]) -> u32 {
    calls::crc32(bytes)
}
