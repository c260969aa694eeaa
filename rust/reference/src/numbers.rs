//! 01, "Numbers answered". The names are this reading's own; the words are
//! those of docs/NUMBERS.md, brought here by `tools/numbers --write`.

/// Declares the numbers with their words, once.
macro_rules! numbers {
    ($($name:ident = $number:literal, $words:literal;)*) => {
        $(#[doc = $words] pub const $name: u8 = $number;)*

        /// Every number with its words.
        pub const TABLE: &[(u8, &str)] = &[$(($number, $words)),*];
    };
}

numbers! {
    DONE = 0, "done";
    FEWER_THAN_6 = 1, "too short: every PDU has 6 bytes or more";
    VERSION = 2, "its version is not 0";
    PROTOCOL = 3, "its protocol is neither 0 nor 1";
    NO_DESTINATION = 4, "it is reliable and has no destination";
    HEADER_PAST_END = 5, "the bytes end within its header";
    PAYLOAD_PAST_END = 6, "the bytes end within its payload";
    HOP_SETTING = 10, "the hop limit asked for is above 7";
    PORT_SETTING = 11, "the port asked for is above 15";
    PAYLOAD_SIZE = 12, "the payload has more than 4,095 bytes";
    RELIABLE_WITHOUT_DESTINATION = 13, "reliable service needs a destination";
    OUTPUT_SHORT = 14, "the output has no room for the PDU, or for its exchange";
    NO_ENCRYPTED_FLAG = 16, "encryption is asked for, and edition 1.1 has no encrypted flag";
    UNKNOWN_EDITION = 17, "the edition is neither 11, which is 1.1, nor 12, which is 1.2";
    LOW_ABOVE_HIGH = 20, "a list has a range whose low is above its high";
    ODD_LIST = 21, "the last value of a list has no partner";
    LONG_LIST = 22, "a list has more than 128 values";
    ECHO = 30, "echo: this node is in the path";
    SOURCE_PASS = 31, "the source pass list does not hold the source";
    SOURCE_REJECT = 32, "the source reject list holds the source";
    DESTINATION_PASS = 33, "the destination pass list does not hold the destination";
    DESTINATION_REJECT = 34, "the destination reject list holds the destination";
    ADDED_HEADER = 35, "not delivered: it has an added header";
    REPEATING_OFF = 36, "not repeated: this node has repeating off";
    HOP_LIMIT_0 = 37, "not repeated: its hop limit is 0";
    PATH_FULL = 38, "not repeated: its path is full, with 255 addresses";
    FOR_ANOTHER = 39, "not delivered: it is for another node";
    REPEAT_SHORT = 40, "the output has no room for the repeated PDU";
    IS_DESTINATION = 41, "not repeated: it is for this node";
    OWN_SOURCE = 42, "echo: this node is the source";
    JOB_SHORT = 50, "the job ends too early";
    JOB_FLAGS = 51, "bit 6 or 7 of the job's flags is set";
    JOB_LIST_COUNT = 52, "a list of the job has more than 64 ranges";
    JOB_LEFT_OVER = 53, "the job goes on after its batch";
    BATCH_SIZE = 54, "the batch has more than 16,384 bytes";
    TABLE_FULL = 55, "a new station, and the table holds 128";
    NOT_HELD = 56, "no such station is held";
    ELEMENT_CUT = 57, "an element does not end within the run that it stands in";
    ELEMENT_TOO_DEEP = 58, "an element stands at level 5";
    NOT_AN_EXCHANGE = 59, "not one element of type 20 that holds one header and one payload";
    QUEUE_FULL = 60, "the queue holds 32 PDUs, or has no room for so many bytes more";
    NOT_ONE_PDU = 61, "not one whole PDU with nothing after it";
    OLDEST_TOO_LONG = 62, "the output has no room for the oldest PDU of the queue";
    NOT_SPLIT_AT_HEADER = 63, "bytes follow the PDU, or its two parts do not meet at the header's end";
    RECORDS_IN_USE = 70, "all 16 records are in use";
    ALREADY_RETAINED = 71, "a PDU of this source, destination and ID is already retained";
    ABOVE_256_BYTES = 72, "the PDU to retain has more than 256 bytes";
    EARLIER_TIME = 73, "the time is earlier than the last accepted one";
    NOT_16_RECORDS = 74, "the lent memory is not 16 records";
    NOT_RETAINABLE = 75, "not exactly one PDU of protocol 1 with ACK clear and no path address";
    SENDING_TOO_LONG = 77, "the output has no room for what is to be sent";
    NOT_ENCRYPTED = 80, "its encrypted bit is clear";
    TOO_SHORT_TO_OPEN = 81, "its payload is too short for a message number and a hash";
    NUMBER_NOT_GREATER = 82, "its message number is not greater than the last accepted from its source";
    HASH_DIFFERS = 83, "its hash differs: another key, or it was changed on its way";
    SOURCES_FULL = 84, "a new source, and the record holds 64";
    SEALED_PAYLOAD_SIZE = 85, "the sealed payload would have more than 4,095 bytes";
    MESSAGE_NUMBER = 86, "the message number is above 16,777,215";
    SEALED_OUTPUT_SHORT = 87, "the output has no room for the sealed PDU, or for the plain payload";
    ALREADY_ENCRYPTED = 88, "its encrypted bit is already set";
}

/// What a number of the table means, in words.
pub fn meaning(number: u8) -> &'static str {
    TABLE
        .iter()
        .find(|row| row.0 == number)
        .map_or("not a number of the table", |row| row.1)
}

/// A number and its meaning, for messages.
pub fn described(number: u8) -> String {
    format!("{number} ({})", meaning(number))
}
