//! Curves as SVG, on two logarithmic scales.

use std::fmt::Write;

pub struct Curve {
    pub name: &'static str,
    /// Where, and how many nanoseconds.
    pub points: Vec<(f64, f64)>,
}

const WIDTH: f64 = 760.0;
const HEIGHT: f64 = 460.0;
const LEFT: f64 = 80.0;
const RIGHT: f64 = 150.0;
const TOP: f64 = 50.0;
const BOTTOM: f64 = 60.0;
const COLOURS: [&str; 7] = [
    "#d62728", "#7f7f7f", "#1f77b4", "#2ca02c", "#ff7f0e", "#9467bd", "#17becf",
];

/// Where a figure lies between the ends of its scale.
struct Scale {
    low: f64,
    high: f64,
    start: f64,
    end: f64,
}

impl Scale {
    fn at(&self, figure: f64) -> f64 {
        let share = (figure / self.low).ln() / (self.high / self.low).ln();
        self.start + share * (self.end - self.start)
    }
}

pub fn svg(title: &str, across: &str, curves: &[Curve]) -> String {
    let points = || curves.iter().flat_map(|curve| curve.points.iter());
    let least = |figures: &mut dyn Iterator<Item = f64>| figures.fold(f64::MAX, f64::min);
    let most = |figures: &mut dyn Iterator<Item = f64>| figures.fold(1.0, f64::max);
    let x = Scale {
        low: least(&mut points().map(|point| point.0)),
        high: most(&mut points().map(|point| point.0)),
        start: LEFT,
        end: WIDTH - RIGHT,
    };
    // Whole decades, so that each has a line and a label.
    let y = Scale {
        low: decade(
            least(&mut points().map(|point| point.1.max(1.0)))
                .log10()
                .floor(),
        ),
        high: decade(most(&mut points().map(|point| point.1)).log10().ceil()),
        start: HEIGHT - BOTTOM,
        end: TOP,
    };
    let mut text = format!(
        "<svg xmlns=\"http://www.w3.org/2000/svg\" width=\"{WIDTH}\" height=\"{HEIGHT}\" \
         font-family=\"sans-serif\" font-size=\"13\">\n\
         <rect width=\"100%\" height=\"100%\" fill=\"white\"/>\n"
    );
    label(&mut text, WIDTH / 2.0, 25.0, "middle", "black", title);
    label(
        &mut text,
        (LEFT + WIDTH - RIGHT) / 2.0,
        HEIGHT - 15.0,
        "middle",
        "black",
        across,
    );
    axes(&mut text, &x, &y, &curves[0]);
    for ((curve, colour), number) in curves.iter().zip(COLOURS).zip(0..) {
        draw(&mut text, curve, colour, &x, &y);
        let height = TOP + 20.0 * f64::from(number);
        label(
            &mut text,
            WIDTH - RIGHT + 20.0,
            height,
            "start",
            colour,
            curve.name,
        );
    }
    text.push_str("</svg>\n");
    text
}

fn decade(power: f64) -> f64 {
    10f64.powf(power)
}

fn label(text: &mut String, x: f64, y: f64, anchor: &str, colour: &str, words: &str) {
    writeln!(
        text,
        "<text x=\"{x:.1}\" y=\"{y:.1}\" text-anchor=\"{anchor}\" fill=\"{colour}\">{words}</text>"
    )
    .expect("a string takes all");
}

fn line(text: &mut String, points: &[(f64, f64)], colour: &str, width: f64) {
    let list: Vec<String> = points
        .iter()
        .map(|(x, y)| format!("{x:.1},{y:.1}"))
        .collect();
    writeln!(
        text,
        "<polyline points=\"{}\" fill=\"none\" stroke=\"{colour}\" stroke-width=\"{width}\"/>",
        list.join(" ")
    )
    .expect("a string takes all");
}

fn axes(text: &mut String, x: &Scale, y: &Scale, first: &Curve) {
    let mut figure = y.low;
    while figure < y.high * 1.1 {
        let height = y.at(figure);
        line(text, &[(x.start, height), (x.end, height)], "#dddddd", 1.0);
        label(
            text,
            x.start - 8.0,
            height + 4.0,
            "end",
            "black",
            &duration(figure),
        );
        figure *= 10.0;
    }
    for &(figure, _) in &first.points {
        let at = x.at(figure);
        line(text, &[(at, y.start), (at, y.end)], "#eeeeee", 1.0);
        label(
            text,
            at,
            y.start + 20.0,
            "middle",
            "black",
            &figure.to_string(),
        );
    }
}

fn duration(nanos: f64) -> String {
    match nanos {
        _ if nanos < 1e3 => format!("{nanos:.0} ns"),
        _ if nanos < 1e6 => format!("{:.0} µs", nanos / 1e3),
        _ => format!("{:.0} ms", nanos / 1e6),
    }
}

fn draw(text: &mut String, curve: &Curve, colour: &str, x: &Scale, y: &Scale) {
    let place = |&(across, nanos): &(f64, f64)| (x.at(across), y.at(nanos.max(1.0)));
    let points: Vec<(f64, f64)> = curve.points.iter().map(place).collect();
    line(text, &points, colour, 2.0);
    for (x, y) in points {
        writeln!(
            text,
            "<circle cx=\"{x:.1}\" cy=\"{y:.1}\" r=\"3\" fill=\"{colour}\"/>"
        )
        .expect("a string takes all");
    }
}
