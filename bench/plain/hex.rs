//! Hexadecimal digits, as a trace and its records have them.

const DIGITS: &[u8; 16] = b"0123456789abcdef";

/// The value of each byte as a digit, and 255 where it is none.
const VALUES: [u8; 256] = {
    let mut values = [255; 256];
    let mut value = 0;
    while value < 16 {
        values[DIGITS[value] as usize] = value as u8;
        value += 1;
    }
    values
};

/// The two digits of each byte.
const PAIRS: [[u8; 2]; 256] = {
    let mut pairs = [[0; 2]; 256];
    let mut byte = 0;
    while byte < 256 {
        pairs[byte] = [DIGITS[byte >> 4], DIGITS[byte & 15]];
        byte += 1;
    }
    pairs
};

/// The value of a digit.
#[inline]
pub fn value(c: u8) -> Option<u8> {
    Some(VALUES[usize::from(c)]).filter(|&value| value < 16)
}

/// The value of up to eight digits.
#[inline]
pub fn fixed(digits: &[u8]) -> Option<u32> {
    let (mut value, mut all) = (0, 0);
    for &c in digits {
        let digit = VALUES[usize::from(c)];
        value = value << 4 | u32::from(digit);
        all |= digit;
    }
    (all < 16).then_some(value)
}

fn is_digit(c: u8) -> bool {
    c.is_ascii_digit() | (b'a'..=b'f').contains(&c)
}

/// How many digits a text begins with.
pub fn run(text: &[u8]) -> usize {
    let (blocks, _) = text.as_chunks::<16>();
    let whole = blocks.iter().take_while(|block| block.iter().fold(true, |all, &c| all & is_digit(c))).count();
    16 * whole + text[16 * whole..].iter().take_while(|&&c| is_digit(c)).count()
}

/// Puts the bytes that pairs of digits stand for, as many as there is room for.
pub fn decode(digits: &[u8], bytes: &mut [u8]) {
    let (pairs, _) = digits.as_chunks();
    for (byte, &pair) in bytes.iter_mut().zip(pairs) {
        let pair = u16::from_le_bytes(pair);
        let values = (pair & 0x0f0f) + 9 * (pair >> 6 & 0x0101);
        *byte = (values << 4 | values >> 8) as u8;
    }
}

/// The two digits of a byte.
fn pair(byte: u8) -> [u8; 2] {
    let values = u16::from(byte >> 4) | u16::from(byte & 15) << 8;
    let letters = (values + 0x0606) >> 4 & 0x0101;
    (values + 0x3030 + u16::from(b'a' - b'9' - 1) * letters).to_le_bytes()
}

/// Spells bytes, and none as a dash.
pub fn spell(bytes: &[u8], out: &mut Vec<u8>) {
    if bytes.is_empty() {
        out.push(b'-');
    }
    for block in bytes.chunks(64) {
        let mut digits = [[0; 2]; 64];
        for (digits, &byte) in digits.iter_mut().zip(block) {
            *digits = pair(byte);
        }
        out.extend_from_slice(digits[..block.len()].as_flattened());
    }
}

/// Spells a number by eight digits.
pub fn word(number: u32) -> [u8; 8] {
    let [a, b, c, d] = number.to_be_bytes().map(|byte| PAIRS[usize::from(byte)]);
    [a[0], a[1], b[0], b[1], c[0], c[1], d[0], d[1]]
}

/// Spells a number without leading zeros.
#[inline]
pub fn number(number: u32, out: &mut Vec<u8>) {
    if let Some(&digit) = DIGITS.get(number as usize) {
        return out.push(digit);
    }
    let most = (31 - (number | 1).leading_zeros()) / 4;
    out.extend((0..=most).rev().map(|place| DIGITS[(number >> (4 * place) & 15) as usize]));
}
