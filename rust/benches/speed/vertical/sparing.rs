//! The best Rust that we know for the job where a plane is read only while a lane is undecided: the bits of
//! the ends tell once for all groups what a plane does, and four groups are read side by side until one is
//! settled. The entries are a multiple of 256.

use crate::column::of_each_width;

/// What a plane does to undecided lanes: those named stay so, the others are outside or, where that is said,
/// inside. A lane's side is its bit where the ends part, 1 being the high end's.
#[derive(Clone, Copy)]
enum Step {
    Zeros,
    Ones,
    ZerosElseInside,
    OnesElseInside,
    /// Here the ends part: all stay, and have their sides.
    Part,
    /// From here on the ends have parted. A 1 on the low side is inside, or a 0 on the high side.
    ZerosElseLowInside,
    OnesElseHighInside,
    SidesElseInside,
    Opposites,
}

impl Step {
    /// By the bits k of the ends, of which one counts or both do.
    fn of(low: Option<u32>, high: Option<u32>, k: u32) -> Step {
        let bit = |end: u32| end >> k & 1 == 1;
        let ends = low.zip(high);
        let parted = ends.is_some_and(|(low, high)| (low ^ high) >> k > 1);
        match (low.map(bit), high.map(bit)) {
            (Some(false), None) => Step::ZerosElseInside,
            (None, Some(true)) => Step::OnesElseInside,
            (Some(false), Some(false)) if parted => Step::ZerosElseLowInside,
            (Some(true), Some(true)) if parted => Step::OnesElseHighInside,
            (Some(false), Some(true)) if parted => Step::SidesElseInside,
            (Some(false), Some(true)) => Step::Part,
            (Some(true), Some(false)) => Step::Opposites,
            (_, Some(false)) => Step::Zeros,
            _ => Step::Ones,
        }
    }
}

/// How the lanes of a group stand to the band: undecided, each on its side, or inside; else outside.
#[derive(Clone, Copy)]
struct Lanes {
    undecided: u64,
    side: u64,
    inside: u64,
}

/// Takes a plane of each group: `told` gives by plane and sides the lanes that stay, and those inside if not.
#[inline(always)]
fn settle<const N: usize>(
    groups: &mut [Lanes; N],
    planes: [u64; N],
    told: impl Fn(u64, u64) -> (u64, u64),
) {
    for (lanes, plane) in groups.iter_mut().zip(planes) {
        let (stay, inside) = told(plane, lanes.side);
        lanes.inside |= lanes.undecided & !stay & inside;
        lanes.undecided &= stay;
    }
}

#[inline(always)]
fn take<const N: usize>(groups: &mut [Lanes; N], planes: [u64; N], step: Step) {
    const ALL: u64 = u64::MAX;
    match step {
        Step::Zeros => settle(groups, planes, |plane, _| (!plane, 0)),
        Step::Ones => settle(groups, planes, |plane, _| (plane, 0)),
        Step::ZerosElseInside => settle(groups, planes, |plane, _| (!plane, ALL)),
        Step::OnesElseInside => settle(groups, planes, |plane, _| (plane, ALL)),
        Step::Part => {
            for (lanes, plane) in groups.iter_mut().zip(planes) {
                lanes.side = plane;
            }
        }
        Step::ZerosElseLowInside => settle(groups, planes, |plane, side| (!plane, !side)),
        Step::OnesElseHighInside => settle(groups, planes, |plane, side| (plane, side)),
        Step::SidesElseInside => settle(groups, planes, |plane, side| (!(plane ^ side), ALL)),
        Step::Opposites => settle(groups, planes, |plane, side| (plane ^ side, 0)),
    }
}

/// Takes planes from number i on until a group is settled or none is left, and gives the next one's number.
#[inline(always)]
fn take_all<const W: usize, const N: usize>(
    groups: &mut [Lanes; N],
    words: &[u64],
    steps: &[Step; W],
    mut i: usize,
) -> usize {
    while i < W && groups.iter().all(|lanes| lanes.undecided != 0) {
        let planes = std::array::from_fn(|g| words[W * g + i]);
        take(groups, planes, steps[i]);
        i += 1;
    }
    i
}

fn select<const W: usize>(
    words: &[u64],
    low: Option<u32>,
    high: Option<u32>,
    bitmap: &mut [u8],
) -> usize {
    let steps: [Step; W] = std::array::from_fn(|i| Step::of(low, high, (W - 1 - i) as u32));
    let start = Lanes {
        undecided: u64::MAX,
        side: 0,
        inside: 0,
    };
    let mut count = 0;
    for (words, bytes) in words.chunks_exact(4 * W).zip(bitmap.chunks_exact_mut(32)) {
        let mut four = [start; 4];
        let taken = take_all(&mut four, words, &steps, 0);
        for (g, eight) in bytes.chunks_exact_mut(8).enumerate() {
            let mut one = [four[g]];
            take_all(&mut one, &words[W * g..][..W], &steps, taken);
            let word = one[0].inside | one[0].undecided;
            eight.copy_from_slice(&word.to_le_bytes());
            count += word.count_ones() as usize;
        }
    }
    count
}

/// Selects the entries from low to high, which is no less, and counts them. The width is 1 to 32.
pub fn scan(words: &[u64], width: u32, low: i64, high: i64, bitmap: &mut [u8]) -> usize {
    type Select = fn(&[u64], Option<u32>, Option<u32>, &mut [u8]) -> usize;
    const SELECTS: [Select; 32] = of_each_width!(select as Select);
    let counting = |end: i64| (0..1 << width).contains(&end).then_some(end as u32);
    match (counting(low), counting(high)) {
        (None, None) => {
            let all = low < 0 && high >= 0;
            bitmap.fill(if all { 0xFF } else { 0 });
            usize::from(all) * 8 * bitmap.len()
        }
        (low, high) => SELECTS[width as usize - 1](words, low, high, bitmap),
    }
}
