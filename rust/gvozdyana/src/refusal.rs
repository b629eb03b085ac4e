use std::error::Error;
use std::fmt;

/// Declares the enum, its numbers and its words from one table.
macro_rules! refusals {
    ($($name:ident = $number:literal, $words:literal;)*) => {
        /// Why the box says no.
        #[derive(Clone, Copy, Debug, PartialEq, Eq, Hash)]
        #[repr(u8)]
        pub enum Refusal {
            $(#[doc = $words] $name = $number,)*
        }

        impl Refusal {
            /// The refusal with this number: 1 to 15, 18, 19 or 27.
            pub fn from_number(number: u8) -> Option<Refusal> {
                match number {
                    $($number => Some(Refusal::$name),)*
                    _ => None,
                }
            }

            fn words(self) -> &'static str {
                match self {
                    $(Refusal::$name => $words,)*
                }
            }
        }
    };
}

refusals! {
    WrongLength = 1, "a frame or its marks are not 26 bytes, a header is not 188, a frame number is past the capture, or a buffer has another length than the one named";
    FillerSet = 2, "a filler bit is 1";
    NoPattern = 3, "four bits or more of B1 to B16 differ from both patterns";
    BeyondRepair = 4, "no code word lies within eight places; with doubtful marks, none is as near as they ask";
    FrameCrc = 5, "the CRC differs, in the repaired word";
    Identification = 6, "the edition named does not have the identification: 4, in the first edition 5 and 6 too, and in a record those above 7";
    StartEndOrUpdate = 7, "start/end or update is not as the identification asks by the edition named";
    FixedBit = 8, "a bit fixed at 1 is 0";
    OverLimit = 9, "page 1, kind 0: latitude is over 900 tenths, or longitude over 1800";
    Field = 10, "a record to be written has a field wider than its place, or not 0 where none is left free";
    NoImage = 11, "a double is no field value's image";
    PacketSync = 12, "header byte 0 is not 0x47";
    HeaderCrc = 13, "the header's CRC does not come out zero";
    MultiplexForm = 14, "the multiplex form is not 0x1";
    HeaderBits = 15, "a header bit fixed at 1 is 0, or a reception state is 11";
    ImpossibleLedger = 18, "no list of at most 4,000,000 frames gives the ledger, or the bytes are not the report of a ledger that one gives";
    LedgerFull = 19, "the ledger has 4,000,000 frames";
    BufferSize = 27, "a buffer for a ledger's report has another size than the report";
}

impl Refusal {
    /// Document 01's number, 1 to 15, or document 02's.
    ///
    /// ```
    /// use gvozdyana::Refusal;
    ///
    /// assert_eq!(Refusal::BeyondRepair.number(), 4);
    /// assert_eq!(Refusal::from_number(4), Some(Refusal::BeyondRepair));
    /// assert_eq!(Refusal::from_number(16), None);
    /// ```
    pub fn number(self) -> u8 {
        self as u8
    }

    /// The refusal whose number is in the low 8 bits of a status; none where they are 0.
    pub(crate) fn from_status(status: u32) -> Option<Refusal> {
        match (status & 255) as u8 {
            0 => None,
            number => {
                Some(Refusal::from_number(number).expect("the archive gives no other number"))
            }
        }
    }
}

impl fmt::Display for Refusal {
    fn fmt(&self, f: &mut fmt::Formatter<'_>) -> fmt::Result {
        write!(f, "refusal {}: {}", self.number(), self.words())
    }
}

impl Error for Refusal {}
