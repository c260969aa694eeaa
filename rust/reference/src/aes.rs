//! AES-128 as FIPS 197 has it, and counter mode as SP 800-38A has it. The
//! substitution box is worked out from its rule, not copied.

/// A key.
pub type Key = [u8; 16];
/// A block, and the state: column after column.
type Block = [u8; 16];

/// 10 rounds, and so 11 round keys.
const ROUNDS: usize = 10;
/// FIPS 197, 5.1.1: the substitution box.
const S_BOX: [u8; 256] = s_box();

/// FIPS 197, 4.2: a product in the field, modulo x^8 + x^4 + x^3 + x + 1.
const fn product(left: u8, right: u8) -> u8 {
    let (mut sum, mut power, mut rest) = (0, left, right);
    while rest != 0 {
        if rest & 1 == 1 {
            sum ^= power;
        }
        let carry = if power & 0x80 != 0 { 0x1B } else { 0 };
        power = (power << 1) ^ carry;
        rest >>= 1;
    }
    sum
}

/// The multiplicative inverse, looked for among all; 0 goes to 0.
const fn inverse(byte: u8) -> u8 {
    let mut other = 255;
    while other > 0 && product(byte, other) != 1 {
        other -= 1;
    }
    other
}

/// 5.1.1: the inverse, then bit i of it plus bits i + 4, 5, 6 and 7 (mod 8),
/// plus 63.
const fn s_box() -> [u8; 256] {
    let mut table = [0; 256];
    let mut place = 0;
    while place < 256 {
        let from = inverse(place as u8);
        let turned = from.rotate_left(1) ^ from.rotate_left(2);
        let more = from.rotate_left(3) ^ from.rotate_left(4);
        table[place] = from ^ turned ^ more ^ 0x63;
        place += 1;
    }
    table
}

/// 5.2: the round keys.
fn round_keys(key: &Key) -> [Block; ROUNDS + 1] {
    let mut words: Vec<[u8; 4]> = key
        .chunks_exact(4)
        .map(|word| [word[0], word[1], word[2], word[3]])
        .collect();
    let mut constant = 1;
    for place in 4..4 * (ROUNDS + 1) {
        let mut word = words[place - 1];
        if place % 4 == 0 {
            word.rotate_left(1);
            word = word.map(substituted);
            word[0] ^= constant;
            constant = product(constant, 2);
        }
        let before = words[place - 4];
        words.push(std::array::from_fn(|byte| before[byte] ^ word[byte]));
    }
    std::array::from_fn(|round| std::array::from_fn(|byte| words[4 * round + byte / 4][byte % 4]))
}

/// 5.1: the cipher of one block.
pub fn encipher(key: &Key, block: &Block) -> Block {
    enciphered(&round_keys(key), block)
}

/// The same with the round keys.
fn enciphered(keys: &[Block; ROUNDS + 1], block: &Block) -> Block {
    let mut state = sum(block, &keys[0]);
    for round_key in &keys[1..ROUNDS] {
        state = sum(&mixed(&shifted(&state.map(substituted))), round_key);
    }
    sum(&shifted(&state.map(substituted)), &keys[ROUNDS])
}

fn substituted(byte: u8) -> u8 {
    S_BOX[usize::from(byte)]
}

/// 5.1.2: row r goes r places to the left.
fn shifted(state: &Block) -> Block {
    std::array::from_fn(|place| {
        let (row, column) = (place % 4, place / 4);
        state[row + 4 * ((column + row) % 4)]
    })
}

/// 5.1.3: each column times {03}x^3 + {01}x^2 + {01}x + {02}.
fn mixed(state: &Block) -> Block {
    std::array::from_fn(|place| {
        let (row, column) = (place % 4, 4 * (place / 4));
        let at = |more: usize| state[column + (row + more) % 4];
        product(2, at(0)) ^ product(3, at(1)) ^ at(2) ^ at(3)
    })
}

/// 5.1.4.
fn sum(left: &Block, right: &Block) -> Block {
    std::array::from_fn(|place| left[place] ^ right[place])
}

/// SP 800-38A, 6.5: each block of the bytes plus the cipher of its counter, the
/// first counter as given and each later one higher by one. The same enciphers
/// and deciphers.
pub fn counter_mode(key: &Key, first: &Block, bytes: &[u8]) -> Vec<u8> {
    let mut counter = u128::from_be_bytes(*first);
    let (keys, mut result) = (round_keys(key), vec![]);
    for part in bytes.chunks(16) {
        let stream = enciphered(&keys, &counter.to_be_bytes());
        result.extend(part.iter().zip(stream).map(|(byte, more)| byte ^ more));
        counter = counter.wrapping_add(1);
    }
    result
}
