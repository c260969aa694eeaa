//! The numbers of refusals as an error.

use std::error::Error;
use std::fmt;

/// Declares the refusals with their numbers and words, once.
macro_rules! refusals {
    ($($name:ident = $number:literal, $words:literal;)*) => {
        /// Why something was refused. The numbers are those of the library.
        #[derive(Clone, Copy, Debug, PartialEq, Eq, PartialOrd, Ord, Hash)]
        #[repr(u8)]
        pub enum Refusal {
            $(#[doc = $words] $name = $number,)*
        }

        impl Refusal {
            /// Every refusal that the library gives, by number.
            pub const ALL: &'static [Refusal] = &[$(Refusal::$name),*];

            /// The refusal with the number; none for 0 and for numbers that
            /// the library does not give.
            pub fn from_number(number: u8) -> Option<Refusal> {
                match number {
                    $($number => Some(Refusal::$name),)*
                    _ => None,
                }
            }

            /// What it means, in words.
            pub fn meaning(self) -> &'static str {
                match self {
                    $(Refusal::$name => $words,)*
                }
            }
        }
    };
}

refusals! {
    TooShort = 1, "too short: every PDU has 6 bytes or more";
    WrongVersion = 2, "its version is not 0";
    UnknownProtocol = 3, "its protocol is neither 0 nor 1";
    NoDestination = 4, "it is reliable and has no destination";
    HeaderCut = 5, "the bytes end within its header";
    PayloadCut = 6, "the bytes end within its payload";
    HopLimitAbove7 = 10, "the hop limit asked for is above 7";
    PortAbove15 = 11, "the port asked for is above 15";
    PayloadTooLong = 12, "the payload has more than 4,095 bytes";
    ReliableWithoutDestination = 13, "reliable service needs a destination";
    OutputTooShort = 14, "the output has no room for the PDU, or for its exchange";
    NoEncryptedFlag = 16, "encryption is asked for, and edition 1.1 has no encrypted flag";
    UnknownEdition = 17, "the edition is neither 11, which is 1.1, nor 12, which is 1.2";
    LowAboveHigh = 20, "a list has a range whose low is above its high";
    ListOdd = 21, "the last value of a list has no partner";
    ListTooLong = 22, "a list has more than 128 values";
    Echo = 30, "echo: this node is in the path";
    SourceNotPassed = 31, "the source pass list does not hold the source";
    SourceRejected = 32, "the source reject list holds the source";
    DestinationNotPassed = 33, "the destination pass list does not hold the destination";
    DestinationRejected = 34, "the destination reject list holds the destination";
    AddedHeader = 35, "not delivered: it has an added header";
    RepeatingOff = 36, "not repeated: this node has repeating off";
    HopLimit0 = 37, "not repeated: its hop limit is 0";
    PathFull = 38, "not repeated: its path is full, with 255 addresses";
    ForAnother = 39, "not delivered: it is for another node";
    RepeatOutputTooShort = 40, "the output has no room for the repeated PDU";
    ForThisNode = 41, "not repeated: it is for this node";
    OwnReport = 42, "echo: this node is the source";
    BatchTooLong = 54, "the batch has more than 16,384 bytes";
    TableFull = 55, "a new station, and the table holds 128";
    NotHeld = 56, "no such station is held";
    ElementCut = 57, "an element does not end within the run that it stands in";
    ElementTooDeep = 58, "an element stands at level 5";
    NotAnExchange = 59, "not one element of type 20 that holds one header and one payload";
    QueueFull = 60, "the queue holds 32 PDUs, or has no room for so many bytes more";
    NotOnePdu = 61, "not one whole PDU with nothing after it";
    OldestTooLong = 62, "the output has no room for the oldest PDU of the queue";
    NotSplitAtHeader = 63, "bytes follow the PDU, or its two parts do not meet at the header's end";
    RecordsInUse = 70, "all 16 records are in use";
    AlreadyRetained = 71, "a PDU of this source, destination and ID is already retained";
    Above256Bytes = 72, "the PDU to retain has more than 256 bytes";
    EarlierTime = 73, "the time is earlier than the last accepted one";
    Not16Records = 74, "the lent memory is not 16 records";
    NotRetainable = 75, "not exactly one PDU of protocol 1 with ACK clear and no path address";
    SendingTooLong = 77, "the output has no room for what is to be sent";
    NotEncrypted = 80, "its encrypted bit is clear";
    TooShortToOpen = 81, "its payload is too short for a message number and a hash";
    NumberNotGreater = 82, "its message number is not greater than the last accepted from its source";
    HashDiffers = 83, "its hash differs: another key, or it was changed on its way";
    RecordFull = 84, "a new source, and the record holds 64";
    SealedTooLong = 85, "the sealed payload would have more than 4,095 bytes";
    NumberTooLarge = 86, "the message number is above 16,777,215";
    NoRoomForPayload = 87, "the output has no room for the sealed PDU, or for the plain payload";
    AlreadyEncrypted = 88, "its encrypted bit is already set";
}

impl Refusal {
    /// Its number.
    pub fn number(self) -> u8 {
        self as u8
    }

    /// A number of the library as a result: 0 is no refusal.
    pub(crate) fn check(number: u8) -> Result<(), Refusal> {
        match Refusal::from_number(number) {
            Some(refusal) => Err(refusal),
            None if number == 0 => Ok(()),
            None => unreachable!("the library has no number {number}"),
        }
    }
}

impl fmt::Display for Refusal {
    fn fmt(&self, f: &mut fmt::Formatter) -> fmt::Result {
        write!(f, "{} ({})", self.number(), self.meaning())
    }
}

impl Error for Refusal {}
