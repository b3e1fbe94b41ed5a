//! The numbers at the axes.

use crate::table::Table;

/// A logarithmic scale of ns an entry: its steps, ascending, the first no higher and the last no lower than all times.
pub struct Scale(Vec<f64>);

impl Scale {
    /// 1, 2 and 5 times a power of ten, as far as the tables' times go.
    pub fn of(tables: &[Table]) -> Scale {
        let rows = tables.iter().flat_map(|table| &table.rows);
        let times = rows.flat_map(|(_, taken)| taken.iter().map(|taken| taken.median));
        let (least, most) = times.fold((f64::MAX, 0.0), |(least, most): (f64, f64), time| {
            (least.min(time), most.max(time))
        });
        let steps = (-4..5).flat_map(|power| [1, 2, 5].map(|digit| format!("{digit}e{power}")));
        let steps: Vec<f64> = steps.map(|step| step.parse().expect("a number")).collect();
        let first = steps.iter().rposition(|&step| step <= least).unwrap_or(0);
        let last = steps.iter().position(|&step| step >= most);
        Scale(steps[first..=last.unwrap_or(steps.len() - 1)].to_vec())
    }

    pub fn steps(&self) -> impl Iterator<Item = f64> + '_ {
        self.0.iter().copied()
    }

    /// How far below the last step a time lies: 0 is there, and 1 at the first.
    pub fn depth(&self, ns: f64) -> f64 {
        let (first, last) = (self.0[0], self.0[self.0.len() - 1]);
        (last / ns).ln() / (last / first).ln()
    }
}

/// The widths that are named at a chart: the first and the last, and between them some that are as far apart.
pub fn widths_named(widths: &[u32]) -> Vec<u32> {
    let (first, last) = (widths[0], widths[widths.len() - 1]);
    let apart = if last > 16 { 8 } else { 4 };
    let between = (first + 1..last).filter(|width| width % apart == 0);
    [first].into_iter().chain(between).chain([last]).collect()
}
