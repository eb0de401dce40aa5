//! The picture of how the index grows, as SVG: the time of each work by the number of entries, both on logarithmic axes.

use crate::growth::{Grown, WORKS};
use crate::index::grouped;
use crate::measure::shown;

const WIDTH: f64 = 1000.0;
const HEIGHT: f64 = 600.0;
/// The sides of the field that the lines are in. Their labels are to the right of it.
const LEFT: f64 = 100.0;
const RIGHT: f64 = 680.0;
const TOP: f64 = 84.0;
const BOTTOM: f64 = 480.0;
/// How far apart the labels are, one below the other.
const APART: f64 = 27.0;
/// How far the field goes beyond the lines at the top and at the bottom, as a logarithm.
const MARGIN: f64 = 0.15;
const GREY: &str = "#666";

/// How a line is drawn: its colour, its dashes, and the shape of its points.
type Style = [&'static str; 3];

/// The styles of [`WORKS`]. Where the last two lines are one upon the other, both are seen.
const STYLES: [Style; WORKS.len()] = [
    ["#a8123c", "none", "M-6 0A6 6 0 0 0 6 0A6 6 0 0 0 -6 0Z"],
    ["#7a3fa0", "none", "M-6 -6H6V6H-6Z"],
    ["#a86500", "none", "M-8 0A8 8 0 0 0 8 0A8 8 0 0 0 -8 0Z"],
    ["#12639e", "9 9", "M-5 0L0 -5L5 0L0 5Z"],
];
/// The style of the line that the others are compared with. It has no points.
const STRAIGHT: Style = [GREY, "2 5", ""];

/// The picture of what was measured on a machine.
pub fn of(all: &[Grown], machine: &str) -> String {
    let lines = lines(all);
    let field = Field::around(&lines);
    let drawn: String = lines.iter().map(|line| line.drawn(&field)).collect();
    [
        frame(machine),
        field.grid(),
        drawn,
        labels(&lines, &field),
        "</svg>\n".to_string(),
    ]
    .concat()
}

/// A line: its points by entries and seconds, and what it is called.
struct Line {
    points: Vec<[f64; 2]>,
    style: Style,
    label: String,
}

/// A line for each of [`WORKS`], and before them one of slope 1 that starts where the first of them does.
fn lines(all: &[Grown]) -> Vec<Line> {
    let points = |work: usize| all.iter().map(move |g| [g.entries as f64, g.seconds[work]]);
    let mut lines = Vec::new();
    if let (Some([few, seconds]), Some([many, _])) = (points(0).next(), points(0).next_back()) {
        lines.push(Line {
            points: vec![[few, seconds], [many, seconds * many / few]],
            style: STRAIGHT,
            label: "in proportion to the entries".to_string(),
        });
    }
    for (work, name) in WORKS.into_iter().enumerate() {
        let last = points(work).next_back().map_or(0.0, |[_, seconds]| seconds);
        lines.push(Line {
            points: points(work).collect(),
            style: STYLES[work],
            label: format!("{name}: {}", shown(last)),
        });
    }
    lines
}

impl Line {
    fn drawn(&self, field: &Field) -> String {
        let [colour, dashes, shape] = self.style;
        let width = if shape.is_empty() { 1.5 } else { 3.0 };
        let places: Vec<String> = self.points.iter().map(|&p| field.place(p)).collect();
        let path = places.join("L");
        let mut drawn = format!(
            r#"<path d="M{path}" fill="none" stroke="{colour}" stroke-width="{width}" stroke-dasharray="{dashes}"/>
"#
        );
        for place in places.iter().filter(|_| !shape.is_empty()) {
            drawn += &format!(
                r##"<path transform="translate({place})" d="{shape}" fill="{colour}" stroke="#fff"/>
"##
            );
        }
        drawn
    }
}

/// An axis: the logarithms of its least and its greatest value, and where these are.
struct Axis {
    logarithms: [f64; 2],
    places: [f64; 2],
}

impl Axis {
    fn place(&self, value: f64) -> f64 {
        let [least, greatest] = self.logarithms;
        let [from, to] = self.places;
        from + (value.log10() - least) / (greatest - least) * (to - from)
    }

    /// The values on it that are these multiples of powers of ten.
    fn marks(&self, multiples: &'static [f64]) -> impl Iterator<Item = f64> + '_ {
        const NEARLY: f64 = 1e-9;
        let [least, greatest] = self.logarithms;
        let powers = least.floor() as i32..=greatest.ceil() as i32;
        let values = powers.flat_map(|n| multiples.iter().map(move |m| m * 10f64.powi(n)));
        values.filter(move |value| (least - NEARLY..=greatest + NEARLY).contains(&value.log10()))
    }
}

/// The field of the lines, with its axes.
struct Field {
    entries: Axis,
    seconds: Axis,
}

impl Field {
    /// The field that holds these lines. Its sides are powers of ten.
    fn around(lines: &[Line]) -> Field {
        let span = |axis: usize| {
            let points = lines.iter().flat_map(|line| &line.points);
            let logarithms = points.map(|point| point[axis].log10());
            logarithms.fold([f64::INFINITY, f64::NEG_INFINITY], |[least, most], l| {
                [least.min(l), most.max(l)]
            })
        };
        let ([fewest, most], [shortest, longest]) = (span(0), span(1));
        let fewest = fewest.floor();
        Field {
            entries: Axis {
                logarithms: [fewest, most.ceil().max(fewest + 1.0)],
                places: [LEFT, RIGHT],
            },
            seconds: Axis {
                logarithms: [shortest - MARGIN, longest + MARGIN],
                places: [BOTTOM, TOP],
            },
        }
    }

    fn place(&self, [entries, seconds]: [f64; 2]) -> String {
        let (x, y) = (self.entries.place(entries), self.seconds.place(seconds));
        format!("{x:.1} {y:.1}")
    }

    /// The axes' marks and what they say.
    fn grid(&self) -> String {
        let mut drawn = String::new();
        for entries in self.entries.marks(&[1.0, 3.0]) {
            let (x, words) = (
                self.entries.place(entries),
                grouped(entries.round() as usize),
            );
            drawn += &format!(
                r##"<path d="M{x:.1} {TOP}V{BOTTOM}" stroke="#ddd"/>
<text x="{x:.1}" y="{}" text-anchor="middle">{words}</text>
"##,
                BOTTOM + 28.0
            );
        }
        for seconds in self.seconds.marks(&[1.0]) {
            let (y, words) = (self.seconds.place(seconds), power(seconds));
            drawn += &format!(
                r##"<path d="M{LEFT} {y:.1}H{RIGHT}" stroke="#ddd"/>
<text x="{}" y="{:.1}" text-anchor="end">{words}</text>
"##,
                LEFT - 12.0,
                y + 6.0
            );
        }
        let axes = format!("M{LEFT} {TOP}V{BOTTOM}H{RIGHT}");
        drawn + &format!("<path d=\"{axes}\" fill=\"none\" stroke=\"#888\"/>\n")
    }
}

/// A power of ten, in seconds, in whole numbers of the unit that suits it.
fn power(seconds: f64) -> String {
    let units = [(1e-9, "ns"), (1e-6, "us"), (1e-3, "ms"), (1.0, "s")];
    let fits = |(unit, _): &&(f64, &str)| *unit < seconds * 1.5;
    let (unit, name) = units.iter().rfind(fits).unwrap_or(&units[0]);
    format!("{:.0} {name}", seconds / unit)
}

/// What is around the field.
fn frame(machine: &str) -> String {
    let machine = escaped(machine);
    let (under, note, last) = (BOTTOM + 56.0, HEIGHT - 34.0, HEIGHT - 12.0);
    let middle = (LEFT + RIGHT) / 2.0;
    format!(
        r##"<svg xmlns="http://www.w3.org/2000/svg" viewBox="0 0 {WIDTH} {HEIGHT}" font-family="sans-serif" font-size="17" fill="#222">
<title>The time to build an index, merge into it, add to it and look up in it, by its number of entries</title>
<rect width="{WIDTH}" height="{HEIGHT}" fill="#fff"/>
<text x="{LEFT}" y="36" font-size="22" font-weight="bold">How an index grows</text>
<text x="{LEFT}" y="66">time to build it, and of each call on it then</text>
<text x="{middle}" y="{under}" text-anchor="middle">entries in the index</text>
<text x="{LEFT}" y="{note}" font-size="15" fill="{GREY}">Medians of the processor's time. Built from entries in random order, by merging.</text>
<text x="{LEFT}" y="{last}" font-size="15" fill="{GREY}">Measured on: {machine}</text>
"##
    )
}

/// Words as they may stand in SVG.
fn escaped(words: &str) -> String {
    words
        .replace('&', "&amp;")
        .replace('<', "&lt;")
        .replace('>', "&gt;")
}

/// The labels of all lines, each with a thin line from where its line ends.
fn labels(lines: &[Line], field: &Field) -> String {
    let ends = lines
        .iter()
        .filter_map(|line| Some((line, line.points.last()?)));
    let mut ends: Vec<_> = ends
        .map(|(line, &[entries, seconds])| {
            (
                field.seconds.place(seconds),
                field.entries.place(entries),
                line,
            )
        })
        .collect();
    ends.sort_by(|(y, ..), (other, ..)| y.total_cmp(other));
    let places = apart(ends.iter().map(|&(y, ..)| y).collect());
    let mut drawn = String::new();
    for ((y, x, line), place) in ends.into_iter().zip(places) {
        let colour = line.style[0];
        drawn += &format!(
            r#"<path d="M{:.1} {y:.1}L{} {place:.1}" stroke="{colour}" stroke-width="1"/>
<text x="{}" y="{:.1}" fill="{colour}">{}</text>
"#,
            x + 8.0,
            RIGHT + 24.0,
            RIGHT + 30.0,
            place + 6.0,
            line.label
        );
    }
    drawn
}

/// Places in rising order, moved as little as need be until they are apart.
fn apart(mut places: Vec<f64>) -> Vec<f64> {
    const TURNS: usize = 200;
    for _ in 0..TURNS {
        for after in 1..places.len() {
            let lack = APART - (places[after] - places[after - 1]);
            if lack > 0.0 {
                places[after - 1] -= lack / 2.0;
                places[after] += lack / 2.0;
            }
        }
    }
    places
}

#[cfg(test)]
mod tests {
    use super::{apart, escaped, power, Axis, APART};

    #[test]
    fn marks_of_an_axis() {
        let axis = Axis {
            logarithms: [4.0, 6.0],
            places: [100.0, 300.0],
        };
        let marks: Vec<f64> = axis.marks(&[1.0, 3.0]).map(f64::round).collect();
        assert_eq!(marks, [1e4, 3e4, 1e5, 3e5, 1e6]);
        let places = [1e4, 1e5, 1e6].map(|value| axis.place(value).round());
        assert_eq!(places, [100.0, 200.0, 300.0]);
        let times = [1e-7, 1e-6, 1e-3, 0.1, 1.0, 10.0].map(power);
        assert_eq!(times, ["100 ns", "1 us", "1 ms", "100 ms", "1 s", "10 s"]);
    }

    #[test]
    fn labels_are_apart() {
        let places = apart(vec![80.0, 200.0, 201.0, 201.0, 300.0]);
        let far_enough = |pair: &[f64]| pair[1] - pair[0] > 0.99 * APART;
        assert!(places.windows(2).all(far_enough));
        assert_eq!([places[0], places[4]], [80.0, 300.0]);
        assert_eq!(escaped("<A & B>"), "&lt;A &amp; B&gt;");
    }
}
