//! The picture of docs/BENCHMARKS.md: for each table a chart of ns an entry by width, all on one scale.

mod scale;

use crate::clock::Taken;
use crate::table::Table;
use scale::{widths_named, Scale};

/// Charts beside one another.
const COLUMNS: usize = 3;

/// In pixels: a chart with its words and numbers, its titles' distance from the left, where its lines begin, and how
/// far they may go.
const CHART: (f64, f64) = (300.0, 250.0);
const TITLE: f64 = 10.0;
const LEFT: f64 = 52.0;
const TOP: f64 = 46.0;
const PLOT: (f64, f64) = (232.0, 160.0);

/// The height of what stands above the charts: what is shown, and the legend.
const HEAD: f64 = 64.0;

/// A colour and a pattern of dashes for each way; ours is first, and drawn whole and broad.
const STYLES: [(&str, &str, f64); 7] = [
    ("#0b5cad", "none", 2.5),
    ("#b4430b", "6 3", 1.5),
    ("#23752b", "2 2", 1.5),
    ("#7a3b9c", "8 2 2 2", 1.5),
    ("#8a6500", "4 4", 1.5),
    ("#5a5a5a", "1 3", 1.5),
    ("#b0125f", "10 2", 1.5),
];

/// The picture as a file of SVG, on white ground.
pub fn of(tables: &[Table]) -> String {
    let ways = ways(tables);
    let scale = Scale::of(tables);
    let rows = tables.len().div_ceil(COLUMNS);
    let width = CHART.0 * COLUMNS as f64;
    let height = HEAD + CHART.1 * rows as f64;
    let mut svg = format!(
        "<svg xmlns=\"http://www.w3.org/2000/svg\" viewBox=\"0 0 {width} {height}\" width=\"{width}\" \
         height=\"{height}\" font-family=\"sans-serif\" font-size=\"11\" fill=\"#222\">\n\
         <rect width=\"{width}\" height=\"{height}\" fill=\"#fff\"/>\n"
    );
    svg += &text(
        (LEFT, 22.0),
        "font-size=\"13\"",
        "ns an entry by width in bits, medians on a logarithmic scale: the lower, the faster",
    );
    svg += &legend(&ways);
    for (i, table) in tables.iter().enumerate() {
        let (column, row) = ((i % COLUMNS) as f64, (i / COLUMNS) as f64);
        let (x, y) = (CHART.0 * column, HEAD + CHART.1 * row);
        svg += &format!("<g transform=\"translate({x} {y})\">\n");
        svg += &chart(table, &scale, &ways);
        svg += "</g>\n";
    }
    svg + "</svg>\n"
}

/// The names of all ways, each once, in the order in which they are met.
fn ways(tables: &[Table]) -> Vec<&'static str> {
    let mut ways = Vec::new();
    for way in tables.iter().flat_map(|table| &table.ways) {
        if !ways.contains(way) {
            ways.push(way);
        }
    }
    assert!(ways.len() <= STYLES.len(), "a style is missing");
    ways
}

fn text(at: (f64, f64), how: &str, words: &str) -> String {
    let (x, y) = at;
    format!("<text x=\"{x:.1}\" y=\"{y:.1}\" {how}>{words}</text>\n")
}

/// A line through some places, with a dot at each, in the style of a way.
fn line(style: usize, places: &[(f64, f64)]) -> String {
    let (colour, dashes, broad) = STYLES[style];
    let join = |place: fn(&(f64, f64)) -> String| places.iter().map(place).collect::<String>();
    let points = join(|(x, y)| format!("{x:.1},{y:.1} "));
    let dots = join(|(x, y)| format!("M{x:.1} {y:.1}h0"));
    format!(
        "<polyline points=\"{points}\" fill=\"none\" stroke=\"{colour}\" stroke-width=\"{broad}\" \
         stroke-dasharray=\"{dashes}\"/>\n\
         <path d=\"{dots}\" stroke=\"{colour}\" stroke-width=\"4\" stroke-linecap=\"round\"/>\n"
    )
}

/// Each way's line and name, one after another.
fn legend(ways: &[&str]) -> String {
    let mut legend = String::new();
    let mut x = LEFT;
    for (style, way) in ways.iter().enumerate() {
        legend += &line(style, &[(x, 44.0), (x + 30.0, 44.0)]);
        legend += &text((x + 36.0, 48.0), "font-size=\"12\"", way);
        x += 60.0 + 7.0 * way.len() as f64;
    }
    legend
}

/// A chart from its own left upper corner on.
fn chart(table: &Table, scale: &Scale, ways: &[&str]) -> String {
    let widths: Vec<u32> = table.rows.iter().map(|&(width, _)| width).collect();
    let (first, last) = (f64::from(widths[0]), f64::from(widths[widths.len() - 1]));
    let x = |width: u32| LEFT + PLOT.0 * (f64::from(width) - first) / (last - first);
    let y = |ns: f64| TOP + PLOT.1 * scale.depth(ns);
    let mut chart = titles(&table.title);
    for ns in scale.steps() {
        chart += &grid((LEFT, y(ns)), (LEFT + PLOT.0, y(ns)));
        chart += &text(
            (LEFT - 6.0, y(ns) + 4.0),
            "text-anchor=\"end\"",
            &ns.to_string(),
        );
    }
    for width in widths_named(&widths) {
        chart += &grid((x(width), TOP), (x(width), TOP + PLOT.1));
        let at = (x(width), TOP + PLOT.1 + 15.0);
        chart += &text(at, "text-anchor=\"middle\"", &width.to_string());
    }
    // Ours last, over the others.
    for (i, way) in table.ways.iter().enumerate().rev() {
        let style = ways.iter().position(|name| name == way);
        let place = |(width, taken): &(u32, Vec<Taken>)| (x(*width), y(taken[i].median));
        let places: Vec<(f64, f64)> = table.rows.iter().map(place).collect();
        chart += &line(style.expect("a way of its own table"), &places);
    }
    chart
}

fn grid(from: (f64, f64), to: (f64, f64)) -> String {
    format!(
        "<path d=\"M{:.1} {:.1}L{:.1} {:.1}\" stroke=\"#ddd\"/>\n",
        from.0, from.1, to.0, to.1
    )
}

/// What a table's title begins with, and in smaller letters what it ends with; what all charts share, the number of
/// entries, stands between them.
fn titles(title: &str) -> String {
    let mut parts = title.splitn(3, ", ");
    let (name, _entries, rest) = (parts.next(), parts.next(), parts.next());
    let name = text(
        (TITLE, 18.0),
        "font-weight=\"bold\" font-size=\"13\"",
        name.unwrap_or(""),
    );
    name + &text(
        (TITLE, 34.0),
        "font-size=\"9\" fill=\"#444\"",
        rest.unwrap_or(""),
    )
}
