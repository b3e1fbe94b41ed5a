//! The scalar listings of Polychroniou and Ross, "Efficient Lightweight Compression Alongside Fast Scans", sections 4.1
//! and 4.4, in safe Rust. The scan's output counter moves once a group here, and it counts as the library does; pack
//! stores the high planes first, as its text says; all else is as printed.

/// Selects the entries from `min` to `max`, and counts them. With `EARLY`, a group is left once all its lanes
/// are settled, as printed; without, all planes are read. The width is 1 to 32.
pub fn scan<const EARLY: bool>(
    packed: &[u64],
    bits: u32,
    min: u32,
    max: u32,
    bitmap: &mut [u8],
) -> usize {
    // Shifted so that the bit to compare is the sign.
    let min_up = i64::from(min) << (64 - bits);
    let max_up = i64::from(max) << (64 - bits);
    let mut count = 0;
    let groups = packed.chunks_exact(bits as usize);
    for (group, eight) in groups.zip(bitmap.chunks_exact_mut(8)) {
        let (mut gt_min, mut eq_min, mut const_min) = (0, -1, min_up);
        let (mut lt_max, mut eq_max, mut const_max) = (0, -1, max_up);
        for &word in group {
            let word = word as i64;
            // The sign broadcast: where the lane's bit differs from it.
            let bit_min = word ^ (const_min >> 63);
            let bit_max = word ^ (const_max >> 63);
            gt_min |= eq_min & bit_min & word;
            lt_max |= eq_max & bit_max & !word;
            eq_min &= !bit_min;
            eq_max &= !bit_max;
            if EARLY && (eq_min | eq_max) == 0 {
                break;
            }
            const_min = const_min.wrapping_add(const_min);
            const_max = const_max.wrapping_add(const_max);
        }
        let selected: i64 = (gt_min | eq_min) & (lt_max | eq_max);
        eight.copy_from_slice(&selected.to_le_bytes());
        count += selected.count_ones() as usize;
    }
    count
}

/// Unpacks and counts the entries, each built of one bit from each of its group's words.
pub fn unpack(packed: &[u64], bits: u32, unpacked: &mut [u32]) -> usize {
    let groups = packed.chunks_exact(bits as usize);
    for (group, codes) in groups.zip(unpacked.chunks_exact_mut(64)) {
        for (b, place) in codes.iter_mut().enumerate() {
            let mut code = 0;
            for word in group {
                code = 2 * code + (word >> b & 1);
            }
            *place = code as u32;
        }
    }
    unpacked.len()
}

/// Packs the entries, each word built of one bit from each of its group's entries. Gives the length written if all are
/// below 2^bits.
pub fn pack(unpacked: &[u32], bits: u32, packed: &mut [u64]) -> Option<usize> {
    let seen = unpacked.iter().fold(0, |seen, code| seen | code);
    let groups = packed.chunks_exact_mut(bits as usize);
    for (group, codes) in groups.zip(unpacked.chunks_exact(64)) {
        for (b, place) in group.iter_mut().rev().enumerate() {
            let mut word = 0u64;
            for code in codes.iter().rev() {
                word = word.wrapping_add(word) + u64::from(code >> b & 1);
            }
            *place = word;
        }
    }
    (u64::from(seen) >> bits == 0).then_some(packed.len())
}
