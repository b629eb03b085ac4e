use crate::{calls, told, Refusal, FRAME_BYTES};

/// A repaired code word, and the number of places in which the received bits differ from it.
#[derive(Clone, Copy, Debug, PartialEq, Eq)]
pub struct Repaired {
    /// B17 to B203 at their places, and 0 elsewhere.
    pub word: [u8; FRAME_BYTES],
    /// The number of repaired places, 0 to 8; with doubtful marks that of the unmarked ones.
    pub places: u8,
}

/// The repair asked for alone: the code word within eight places of B17 to B203. Refuses 1, then 4.
///
/// A code word hit in up to eight places comes back as it was sent; hit in nine it is refused 4; from ten hits on it is refused 4, or the word is
/// another one, and hits and repaired places make at least 18 together.
///
/// ```
/// use gvozdyana::{repair, Refusal};
///
/// let mut frame = [0; 26];
/// frame[25] = 0x10;
/// let repaired = repair(&frame)?;
/// assert_eq!((repaired.word, repaired.places), ([0; 26], 1));
/// assert_eq!(repair(&frame[..25]), Err(Refusal::WrongLength));
/// # Ok::<(), Refusal>(())
/// ```
pub fn repair(frame: &[u8]) -> Result<Repaired, Refusal> {
    let mut word = [0; FRAME_BYTES];
    let places = repair_into(frame, &mut word)?;
    Ok(Repaired { word, places })
}

/// The same into a buffer of 26 bytes, which a refusal leaves as it was. A buffer of another length is refusal 1.
pub fn repair_into(frame: &[u8], word: &mut [u8]) -> Result<u8, Refusal> {
    told(calls::repair(frame, word)).map(|places| places as u8)
}

/// The same answers as [`repair`] by a second engine, which divides by a shift register bit by bit: slow, for comparison.
///
/// ```
/// use gvozdyana::{repair, repair_by_register, Refusal};
///
/// let mut frame = [0; 26];
/// frame[25] = 0x10;
/// assert_eq!(repair_by_register(&frame)?.places, 1);
/// assert_eq!(repair_by_register(&frame), repair(&frame));
/// assert_eq!(repair_by_register(&frame[..25]), Err(Refusal::WrongLength));
/// # Ok::<(), Refusal>(())
/// ```
pub fn repair_by_register(frame: &[u8]) -> Result<Repaired, Refusal> {
    let mut word = [0; FRAME_BYTES];
    let places = told(calls::repair_register(frame, &mut word))? as u8;
    Ok(Repaired { word, places })
}

/// The repair with doubtful marks, asked for alone. The marks are 26 bytes: Bk is 1 where the frame's Bk is doubtful. Only those of B17 to B203
/// count, s of them set, and the bits received under them do not matter. The answer is the code word that differs in t unmarked places with 2t+s at
/// most 17, and t as its places; there is never more than one. With no mark set it is that of [`repair`]. Refuses 1, for the frame or for the marks,
/// then 4 exactly when there is no such word.
///
/// ```
/// use gvozdyana::{repair, repair_marked, Refusal};
///
/// // The frame of zeros with the last 17 bits received wrongly, and marked.
/// let mut frame = [0; 26];
/// (frame[23], frame[24], frame[25]) = (0x1F, 0xFF, 0xF0);
/// let mut marks = frame;
/// let repaired = repair_marked(&frame, &marks)?;
/// assert_eq!((repaired.word, repaired.places), ([0; 26], 0));
/// assert_eq!(repair(&frame), Err(Refusal::BeyondRepair));
/// // One of them without its mark is a place to be repaired: 2 and 16 make 18.
/// marks[23] = 0x0F;
/// assert_eq!(repair_marked(&frame, &marks), Err(Refusal::BeyondRepair));
/// frame[24] = 0x7F;
/// marks[24] = 0x7F;
/// assert_eq!(repair_marked(&frame, &marks)?.places, 1);
/// assert_eq!(repair_marked(&frame, &marks[..25]), Err(Refusal::WrongLength));
/// # Ok::<(), Refusal>(())
/// ```
pub fn repair_marked(frame: &[u8], marks: &[u8]) -> Result<Repaired, Refusal> {
    let mut word = [0; FRAME_BYTES];
    let places = repair_marked_into(frame, marks, &mut word)?;
    Ok(Repaired { word, places })
}

/// The same into a buffer of 26 bytes, which a refusal leaves as it was. A buffer of another length is refusal 1.
pub fn repair_marked_into(frame: &[u8], marks: &[u8], word: &mut [u8]) -> Result<u8, Refusal> {
    told(calls::repair_marked(frame, marks, word)).map(|places| places as u8)
}
