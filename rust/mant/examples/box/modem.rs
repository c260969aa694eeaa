//! Stored frames that stand for the modem.

/// The second at which each is heard, what it is, and its PDUs in hex.
const FRAMES: [(u64, &str, &str); 8] = [
    (
        3,
        "reports of gauges 1000 and 1300",
        "0200200203E8001234 0200200105140055",
    ),
    (
        6,
        "a long report of gauge 1001",
        "0200201E03E900 560000000000000000000000000000000000000000000000000000000000",
    ),
    (
        12,
        "the first again, by way of this box and of 2001",
        "0200000203E80207D007D11234",
    ),
    (
        13,
        "a sealed command of the base, changed on its way",
        "0B08300B064007D00900 0003525C1BA03B2D5977B4",
    ),
    (
        14,
        "the same as it was sent",
        "0B08300B064007D00900 0003525C1BA03B2D5977B5",
    ),
    (
        24,
        "the same again, since its acknowledgement was lost",
        "0B08300B064007D00900 0003525C1BA03B2D5977B5",
    ),
    (
        33,
        "the base acknowledges the alarm",
        "0B013000064007D00100",
    ),
    (36, "a report cut on its way", "0200200503E80012"),
];

/// What each frame of a second is, and its bytes.
pub fn heard_at(second: u64) -> impl Iterator<Item = (&'static str, Vec<u8>)> {
    let frames = FRAMES.iter().filter(move |frame| frame.0 == second);
    frames.map(|&(_, what, hex)| (what, bytes_of(hex)))
}

fn bytes_of(hex: &str) -> Vec<u8> {
    let digits: Vec<u32> = hex.chars().filter_map(|digit| digit.to_digit(16)).collect();
    let bytes = digits.chunks(2).map(|pair| pair[0] * 16 + pair[1]);
    bytes.map(|byte| byte as u8).collect()
}
