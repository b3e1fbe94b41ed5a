//! What the recorder of the sample day saw, second by second. Whole numbers only, so that every machine makes the same day.

/// The seconds of a day.
pub const SECONDS: i64 = 86_400;

/// From one high water to the next: 12 hours and 25 minutes.
const TIDE: i64 = 44_700;
/// The high water: 12:00.
const HIGH: i64 = 43_200;

/// The water level in centimetres without waves: 420 at noon, 110 at 05:00, and two tides in all.
fn calm(second: i64) -> i64 {
    (2586 + 1614 * cosine(second - HIGH) / 10_000) / 10
}

/// Ten thousand times the cosine of the tide's turn, by Bhaskara's formula.
fn cosine(seconds: i64) -> i64 {
    let turn = seconds.rem_euclid(TIDE);
    let half = TIDE / 2;
    let x = (turn + half / 2) % TIDE;
    let (side, x) = if x < half { (1, x) } else { (-1, x - half) };
    let p = x * (half - x);
    side * 10_000 * 16 * p / (5 * half * half - 4 * p)
}

/// SplitMix64, from a fixed seed.
struct Waves(u64);

impl Waves {
    fn below(&mut self, limit: u64) -> u64 {
        self.0 = self.0.wrapping_add(0x9E37_79B9_7F4A_7C15);
        let mut z = self.0;
        z = (z ^ (z >> 30)).wrapping_mul(0xBF58_476D_1CE4_E5B9);
        z = (z ^ (z >> 27)).wrapping_mul(0x94D0_49BB_1331_11EB);
        (z ^ (z >> 31)) % limit
    }
}

/// The water level: on the full hour it is read through a still pipe, else with waves of up to 3 centimetres.
pub fn level() -> Vec<i32> {
    let mut waves = Waves(1);
    let wave = |waves: &mut Waves| waves.below(7) as i64 - 3;
    (0..SECONDS)
        .map(|second| match second % 3600 {
            0 => calm(second) as i32,
            _ => (calm(second) + wave(&mut waves)) as i32,
        })
        .collect()
}

/// The decks that the ship's landing can lie at.
pub const DECKS: [i32; 4] = [2, 3, 4, 5];

/// The number of the deck in `DECKS` that the landing lies at: the higher the water, the lower the deck.
pub fn landing() -> Vec<u32> {
    let deck = |level: i64| match level {
        350.. => 0,
        260.. => 1,
        170.. => 2,
        _ => 3,
    };
    (0..SECONDS).map(|second| deck(calm(second))).collect()
}

/// The lift calls of each second, 0 to 7: most from 07:00 to 10:00 and from 16:00 to 18:00, none at night.
pub fn calls() -> Vec<u32> {
    let mut people = Waves(2);
    let rush = |second: i64| match second / 3600 {
        7..=9 | 16..=17 => 3,
        6 | 10..=15 | 18..=22 => 40,
        _ => 0,
    };
    (0..SECONDS)
        .map(|second| match rush(second) {
            0 => 0,
            once_in => match people.below(once_in) {
                0 => 1 + people.below(7) as u32,
                _ => 0,
            },
        })
        .collect()
}

/// How many of 15 lifts are busy: each call starts one, and each rides for half a minute to a minute and a half.
pub fn busy() -> Vec<u32> {
    let mut rides = Waves(3);
    let mut ends: Vec<i64> = Vec::new();
    calls()
        .into_iter()
        .zip(0..)
        .map(|(calls, second)| {
            ends.retain(|&end| end > second);
            for _ in 0..calls.min(15 - ends.len() as u32) {
                ends.push(second + 30 + rides.below(61) as i64);
            }
            ends.len() as u32
        })
        .collect()
}
