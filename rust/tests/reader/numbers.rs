//! Variable-length numbers, the bytes they are read from, and signed numbers of 32 bits.

use super::bit;

/// The next byte of a page, and the place after it; 5 where there is none.
pub fn byte(page: &[u8], at: usize) -> Result<(u8, usize), u32> {
    page.get(at).map(|&byte| (byte, at + 1)).ok_or(5)
}

/// Seven bits a byte, lowest first, top bit set where more follow. At most five bytes, the fifth at most
/// 0F, else 9.
pub fn number(page: &[u8], mut at: usize) -> Result<(u64, usize), u32> {
    let mut number = 0;
    for k in 0..5 {
        let (b, next) = byte(page, at)?;
        if k == 4 && b > 0x0F {
            return Err(9);
        }
        for i in 0..7 {
            if bit(b, i) {
                number += 1u64 << (7 * k + i);
            }
        }
        at = next;
        if !bit(b, 7) {
            break;
        }
    }
    Ok((number, at))
}

/// Even 2k is k, odd 2k + 1 is −k − 1.
pub fn zigzag(page: &[u8], at: usize) -> Result<(i64, usize), u32> {
    let (number, next) = number(page, at)?;
    let k = (number / 2) as i64;
    Ok((if number % 2 == 0 { k } else { -k - 1 }, next))
}

/// The shortest spelling of a number.
pub fn shortest(mut number: u64) -> Vec<u8> {
    let mut spelled = Vec::new();
    while number >= 128 {
        spelled.push((number % 128 + 128) as u8);
        number /= 128;
    }
    spelled.push(number as u8);
    spelled
}

/// The number that zigzag reads as k.
pub fn zigzag_of(k: i64) -> u64 {
    if k >= 0 {
        2 * k as u64
    } else {
        2 * (-k - 1) as u64 + 1
    }
}

/// A number wrapping in 32 bits.
pub fn wrapped(number: i64) -> i32 {
    let remainder = number.rem_euclid(1 << 32);
    let signed = if remainder < 1 << 31 {
        remainder
    } else {
        remainder - (1 << 32)
    };
    i32::try_from(signed).expect("a signed number of 32 bits")
}
