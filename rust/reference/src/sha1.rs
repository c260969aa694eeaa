//! SHA-1 as FIPS 180-4 has it.

/// 5.3.1: the initial hash value.
const FIRST: [u32; 5] = [
    0x6745_2301,
    0xEFCD_AB89,
    0x98BA_DCFE,
    0x1032_5476,
    0xC3D2_E1F0,
];

/// The digest of a message.
pub fn sha1(message: &[u8]) -> [u8; 20] {
    let mut hash = FIRST;
    for block in padded(message).chunks_exact(64) {
        let after = hashed(hash, &schedule(block));
        hash = std::array::from_fn(|place| hash[place].wrapping_add(after[place]));
    }
    std::array::from_fn(|place| hash[place / 4].to_be_bytes()[place % 4])
}

/// 5.1.1: a bit 1, zeros, and the message's length in bits, in 64 of them.
fn padded(message: &[u8]) -> Vec<u8> {
    let mut bytes = message.to_vec();
    bytes.push(0x80);
    while bytes.len() % 64 != 56 {
        bytes.push(0);
    }
    bytes.extend((8 * message.len() as u64).to_be_bytes());
    bytes
}

/// 6.1.2, step 1: the 80 words of a block.
fn schedule(block: &[u8]) -> [u32; 80] {
    let mut words = [0; 80];
    for place in 0..80 {
        words[place] = match place {
            0..16 => {
                let bytes = &block[4 * place..4 * place + 4];
                bytes
                    .iter()
                    .fold(0, |word, byte| word << 8 | u32::from(*byte))
            }
            _ => {
                let back = |places: usize| words[place - places];
                (back(3) ^ back(8) ^ back(14) ^ back(16)).rotate_left(1)
            }
        };
    }
    words
}

/// Steps 2 and 3: the five working variables after 80 turns.
fn hashed(hash: [u32; 5], words: &[u32; 80]) -> [u32; 5] {
    let [mut a, mut b, mut c, mut d, mut e] = hash;
    for (turn, word) in words.iter().enumerate() {
        let (mixed, constant) = match turn {
            0..20 => ((b & c) ^ (!b & d), 0x5A82_7999_u32),
            20..40 => (b ^ c ^ d, 0x6ED9_EBA1),
            40..60 => ((b & c) ^ (b & d) ^ (c & d), 0x8F1B_BCDC),
            _ => (b ^ c ^ d, 0xCA62_C1D6),
        };
        let sum = [mixed, e, constant, *word]
            .into_iter()
            .fold(a.rotate_left(5), u32::wrapping_add);
        (a, b, c, d, e) = (sum, a, b.rotate_left(30), c, d);
    }
    [a, b, c, d, e]
}
