//! The cable multiplex frame header, read and written, and a frame laid into it and taken out.
use crate::{calls, told, Edition, Refusal, HEADER_BYTES};

/// The values of a header's record.
pub const HEADER_VALUES: usize = 145;

/// What a header says, and how many bits each field has; fixed bits and CRC are not in it. Each value may be too much for its place, and the writer
/// then refuses it.
#[derive(Clone, Copy, Debug, PartialEq, Eq, Hash)]
pub struct Header {
    /// 32 bits: the packet header, byte 0 highest, which is 0x47.
    pub packet: u64,
    /// 16 bits: the multiplex frame's sync.
    pub frame_sync: u64,
    /// 3 bits: the change number.
    pub change: u64,
    /// 1 bit: the method.
    pub method: u64,
    /// 4 bits: the multiplex form, 0x1.
    pub form: u64,
    /// 1 bit each: streams 1 to 15, 1 for valid.
    pub valid: [u64; 15],
    /// 16 bits each: the stream ids of streams 1 to 15.
    pub streams: [u64; 15],
    /// 16 bits each: the original network ids of streams 1 to 15.
    pub networks: [u64; 15],
    /// 2 bits each: the reception states of streams 1 to 15, 0 (best), 1 or 2.
    pub states: [u64; 15],
    /// 1 bit: carried as it stands.
    pub carried: u64,
    /// 1 bit: emergency start.
    pub emergency: u64,
    /// 4 bits each: the stream of slots 2 to 53, 0 for an empty one.
    pub slots: [u64; 52],
    /// 25 values of 8 bits, 1 of 4: the AC frame's 204 bits; all ones when none is sent. The frame's 26 bytes are the first 25 as they stand, and the
    /// last one times 16.
    pub ac: [u64; 26],
}

impl Default for Header {
    /// No valid stream, every slot empty, and no frame sent: the AC bits are all ones.
    fn default() -> Header {
        let mut ac = [0xFF; 26];
        ac[25] = 0xF;
        Header {
            packet: 0x4700_0000,
            frame_sync: 0,
            change: 0,
            method: 0,
            form: 1,
            valid: [0; 15],
            streams: [0; 15],
            networks: [0; 15],
            states: [0; 15],
            carried: 0,
            emergency: 0,
            slots: [0; 52],
            ac,
        }
    }
}

impl Header {
    /// The header with these values, in their order in a header's record: the ids of stream and network are in turn there.
    pub fn from_values(values: [u64; HEADER_VALUES]) -> Header {
        Header {
            packet: values[0],
            frame_sync: values[1],
            change: values[2],
            method: values[3],
            form: values[4],
            valid: std::array::from_fn(|i| values[5 + i]),
            streams: std::array::from_fn(|i| values[20 + 2 * i]),
            networks: std::array::from_fn(|i| values[21 + 2 * i]),
            states: std::array::from_fn(|i| values[50 + i]),
            carried: values[65],
            emergency: values[66],
            slots: std::array::from_fn(|i| values[67 + i]),
            ac: std::array::from_fn(|i| values[119 + i]),
        }
    }

    /// The values of the header's record.
    pub fn values(&self) -> [u64; HEADER_VALUES] {
        std::array::from_fn(|i| match i {
            0 => self.packet,
            1 => self.frame_sync,
            2 => self.change,
            3 => self.method,
            4 => self.form,
            5..=19 => self.valid[i - 5],
            20..=49 if i % 2 == 0 => self.streams[(i - 20) / 2],
            20..=49 => self.networks[(i - 21) / 2],
            50..=64 => self.states[i - 50],
            65 => self.carried,
            66 => self.emergency,
            67..=118 => self.slots[i - 67],
            _ => self.ac[i - 119],
        })
    }
}

/// Reads a header. Refuses 1, 12, 13, 14, 15.
///
/// ```
/// use gvozdyana::header::{read, write, Header};
/// use gvozdyana::Refusal;
///
/// let header = Header { emergency: 1, ..Header::default() };
/// let mut bytes = write(&header)?;
/// assert_eq!(read(&bytes), Ok(header));
/// bytes[187] ^= 1;
/// assert_eq!(read(&bytes), Err(Refusal::HeaderCrc));
/// assert_eq!(read(&bytes[..187]), Err(Refusal::WrongLength));
/// # Ok::<(), Refusal>(())
/// ```
pub fn read(header: &[u8]) -> Result<Header, Refusal> {
    let mut values = [0; HEADER_VALUES];
    told(calls::header_read(header, &mut values))?;
    Ok(Header::from_values(values))
}

/// Writes a header. Refuses 10, 12, 14, 15.
///
/// ```
/// use gvozdyana::header::{write, Header};
/// use gvozdyana::Refusal;
///
/// let of_form = |form| write(&Header { form, ..Header::default() });
/// assert_eq!(of_form(1)?[6], 0x01);
/// assert_eq!(of_form(2), Err(Refusal::MultiplexForm));
/// assert_eq!(of_form(16), Err(Refusal::Field));
/// # Ok::<(), Refusal>(())
/// ```
pub fn write(header: &Header) -> Result<[u8; HEADER_BYTES], Refusal> {
    let mut bytes = [0; HEADER_BYTES];
    write_into(header, &mut bytes)?;
    Ok(bytes)
}

/// The same into a buffer of 188 bytes, which a refusal leaves as it was. A buffer of another length is refusal 1.
pub fn write_into(header: &Header, bytes: &mut [u8]) -> Result<(), Refusal> {
    told(calls::header_write(&header.values(), bytes)).map(|_| ())
}

/// Lays a frame, repaired and with the clean pattern, into a header. Refuses the header as [`read`] does, then the frame as
/// [`frame::read`](crate::frame::read) does by the edition named; the header is then as it was.
///
/// ```
/// use gvozdyana::header::{lay_in, take_out, write, Header};
/// use gvozdyana::{frame, Edition, Refusal};
///
/// let empty = write(&Header::default())?;
/// let mut header = empty;
/// let frame = frame::write(Edition::First, &frame::Record::no_information(5))?;
/// lay_in(Edition::First, &mut header, &frame)?;
/// assert_ne!(header, empty);
/// take_out(&mut header)?;
/// assert_eq!(header, empty);
/// assert_eq!(lay_in(Edition::First, &mut header, &[0; 26]), Err(Refusal::NoPattern));
/// assert_eq!(header, empty);
/// # Ok::<(), Refusal>(())
/// ```
pub fn lay_in(edition: Edition, header: &mut [u8], frame: &[u8]) -> Result<(), Refusal> {
    told(calls::lay_in(edition.number(), header, frame)).map(|_| ())
}

/// The same of a frame with its doubtful marks: refuses the header as [`read`] does, then the frame as
/// [`frame::read_marked`](crate::frame::read_marked) does by the edition named; the header is then as it was.
///
/// ```
/// use gvozdyana::header::{lay_in, lay_in_marked, write, Header};
/// use gvozdyana::{frame, Edition, Refusal};
///
/// let empty = write(&Header::default())?;
/// let (mut header, mut expected) = (empty, empty);
/// let mut frame = frame::write(Edition::First, &frame::Record::no_information(5))?;
/// lay_in(Edition::First, &mut expected, &frame)?;
/// // Sixteen bits that cannot be made out.
/// let mut marks = [0; 26];
/// (frame[10], frame[11]) = (0, 0);
/// (marks[10], marks[11]) = (0xFF, 0xFF);
/// lay_in_marked(Edition::First, &mut header, &frame, &marks)?;
/// assert_eq!(header, expected);
/// let refused = lay_in_marked(Edition::First, &mut header, &frame, &[0xFF; 26]);
/// assert_eq!((refused, header), (Err(Refusal::BeyondRepair), expected));
/// # Ok::<(), Refusal>(())
/// ```
pub fn lay_in_marked(
    edition: Edition,
    header: &mut [u8],
    frame: &[u8],
    marks: &[u8],
) -> Result<(), Refusal> {
    told(calls::lay_in_marked(edition.number(), header, frame, marks)).map(|_| ())
}

/// Writes 204 ones instead of a header's frame. Refuses as [`read`] does; the header is then as it was.
pub fn take_out(header: &mut [u8]) -> Result<(), Refusal> {
    told(calls::take_out(header)).map(|_| ())
}
