//! How many planes of a group are taken, by the rule alone.

/// The least number of planes after which no lane's planes so far are the highest bits of a constant, or all
/// if there is none. A constant that is no number of the width does not count.
fn taken(group: &[u32], width: u32, constants: [i64; 2]) -> u32 {
    let counts = |constant: &i64| (0..1 << width).contains(constant);
    let some_undecided = |planes: u32| {
        let highest = |number: i64| number >> (width - planes);
        let undecided = |constant: i64| {
            let mut lanes = group.iter();
            lanes.any(|&entry| highest(entry.into()) == highest(constant))
        };
        constants.into_iter().filter(counts).any(undecided)
    };
    let fewer = (0..width).find(|&planes| !some_undecided(planes));
    fewer.unwrap_or(width)
}

/// The mean over the groups of some entries.
pub fn mean(entries: &[u32], width: u32, constants: [i64; 2]) -> f64 {
    let groups = entries.chunks(64);
    let count = groups.len() as f64;
    let taken = groups.map(|group| taken(group, width, constants));
    f64::from(taken.sum::<u32>()) / count
}
