//! What all ways share: a dictionary's values, and an index page's width and stream.

/// The values of a dictionary, if they ascend.
pub fn values(dictionary: &[u8]) -> Option<Vec<i32>> {
    let (fours, rest) = dictionary.as_chunks();
    let values: Vec<i32> = fours.iter().map(|&four| i32::from_le_bytes(four)).collect();
    let ascend = values.windows(2).all(|pair| pair[0] < pair[1]);
    (rest.is_empty() && dictionary.len() <= 65_536 && ascend).then_some(values)
}

/// The width of a page's indexes, 1 to 32, and their stream.
pub fn stream(page: &[u8]) -> Option<(u32, &[u8])> {
    let (&width, stream) = page.split_first()?;
    let good = (1..=32).contains(&width);
    good.then_some((width.into(), stream))
}
