//! The growth of each service's time with the number of lines, as an SVG: the archive, the Rust version and the yardstick in C. Circuits and schedules have
//! a panel each, live ciphertexts another one, and each curve is of one family of files, which differ in their length alone.

use crate::Row;

const BOTTOM: f64 = 400.0;
const WIDTH: f64 = 320.0;
const HEIGHT: f64 = 280.0;
/// There are at most so many steps on an axis.
const MOST_STEPS: f64 = 6.0;

struct Panel {
    title: &'static str,
    family: &'static str,
    services: &'static [(&'static str, &'static str)],
    left: f64,
}

const PANELS: [Panel; 3] = [
    Panel {
        title: "Circuits",
        family: "circuit of",
        services: &[("plan", "#2b5c9e"), ("least level", "#7a4fa3"), ("quote", "#b3403a")],
        left: 60.0,
    },
    Panel { title: "Schedules", family: "schedule of", services: &[("check", "#b07a1e"), ("erase", "#2e7d4f")], left: 450.0 },
    Panel {
        title: "Live ciphertexts",
        family: "sums,",
        services: &[("live", "#2b5c9e"), ("live peak", "#7a4fa3"), ("live after", "#b07a1e"), ("may drop", "#2e7d4f")],
        left: 840.0,
    },
];
const PICTURE_WIDTH: f64 = 1190.0;

/// An axis from 0 to a whole number of round steps.
struct Axis {
    step: f64,
    most: f64,
}

/// A step is 1, 2 or 5 times a power of ten, the least with which there are few enough.
fn axis(greatest: f64) -> Axis {
    let mut step = 1.0;
    let mut factors = [2.0, 2.5, 2.0].into_iter().cycle();
    while greatest / step > MOST_STEPS {
        step *= factors.next().unwrap_or(2.0);
    }
    Axis { step, most: step * (greatest / step).ceil().max(1.0) }
}

struct Scale {
    left: f64,
    lines: Axis,
    micros: Axis,
}

impl Scale {
    fn x(&self, lines: f64) -> f64 {
        self.left + WIDTH * lines / self.lines.most
    }

    fn y(&self, micros: f64) -> f64 {
        BOTTOM - HEIGHT * micros / self.micros.most
    }
}

fn points<'a>(rows: &'a [Row], family: &str, service: &str) -> Vec<&'a Row> {
    let mut points: Vec<&Row> = rows.iter().filter(|row| row.service == service && row.input.starts_with(family)).collect();
    points.sort_by_key(|row| row.lines);
    points
}

fn curve(points: &[&Row], scale: &Scale, look: &str, time: impl Fn(&Row) -> f64) -> String {
    let step = |(i, row): (usize, &&Row)| {
        format!("{}{:.1} {:.1}", if i == 0 { "M" } else { "L" }, scale.x(row.lines as f64), scale.y(time(row) / 1000.0))
    };
    let path: String = points.iter().enumerate().map(step).collect();
    format!("<path d=\"{path}\" fill=\"none\" {look}/>\n")
}

fn ticks(axis: &Axis) -> impl Iterator<Item = f64> + '_ {
    (0..).map(|i| i as f64 * axis.step).take_while(|at| *at <= axis.most)
}

fn axes(scale: &Scale) -> String {
    let (left, right) = (scale.left, scale.left + WIDTH);
    let mut text = String::new();
    for micros in ticks(&scale.micros) {
        let y = scale.y(micros);
        text += &format!("<path d=\"M{left:.0} {y:.1}H{right:.0}\" stroke=\"#d5dae1\"/>\n");
        text += &format!("<text x=\"{:.0}\" y=\"{:.1}\" text-anchor=\"end\">{micros:.0}</text>\n", left - 8.0, y + 4.0);
    }
    for lines in ticks(&scale.lines) {
        let x = scale.x(lines);
        text += &format!("<path d=\"M{x:.1} {BOTTOM}V{:.0}\" stroke=\"#444\"/>\n", BOTTOM + 5.0);
        text += &format!("<text x=\"{x:.1}\" y=\"{:.0}\" text-anchor=\"middle\">{lines:.0}</text>\n", BOTTOM + 20.0);
    }
    text += &format!("<path d=\"M{left:.0} {BOTTOM}H{right:.0}M{left:.0} {BOTTOM}V{:.0}\" stroke=\"#444\" fill=\"none\"/>\n", BOTTOM - HEIGHT);
    text + &format!("<text x=\"{:.0}\" y=\"{:.0}\" text-anchor=\"middle\">lines of the file</text>\n", left + WIDTH / 2.0, BOTTOM + 42.0)
}

fn panel(panel: &Panel, rows: &[Row]) -> String {
    let Panel { title, family, services, left } = panel;
    let shown: Vec<&Row> = services.iter().flat_map(|(service, _)| points(rows, family, service)).collect();
    let greatest = |of: fn(&Row) -> f64| shown.iter().map(|row| of(row)).fold(1.0, f64::max);
    let scale = Scale {
        left: *left,
        lines: axis(greatest(|row| row.lines as f64)),
        micros: axis(greatest(|row| row.archive.max(row.rust).max(row.yardstick) / 1000.0)),
    };
    let mut text = format!("<text x=\"{left:.0}\" y=\"88\" font-weight=\"bold\">{title}</text>\n<text x=\"{left:.0}\" y=\"108\">µs a call</text>\n");
    text += &axes(&scale);
    for (i, (service, colour)) in services.iter().enumerate() {
        let points = points(rows, family, service);
        text += &curve(&points, &scale, &format!("stroke=\"{colour}\" stroke-width=\"2\""), |row| row.archive);
        text += &curve(&points, &scale, &format!("stroke=\"{colour}\" stroke-width=\"1.5\" stroke-dasharray=\"5 4\""), |row| row.rust);
        text += &curve(&points, &scale, &format!("stroke=\"{colour}\" stroke-width=\"1.5\" stroke-dasharray=\"1 4\""), |row| row.yardstick);
        text += &format!("<text x=\"{:.0}\" y=\"{}\" fill=\"{colour}\" font-weight=\"bold\">{service}</text>\n", left + 14.0, 134 + 20 * i);
    }
    text
}

/// What a solid, a dashed and a dotted line are.
fn legend() -> String {
    let entries = [("archive", "stroke-width=\"2\""), ("Rust version", "stroke-dasharray=\"5 4\""), ("yardstick in C", "stroke-dasharray=\"1 4\"")];
    let mut text = String::new();
    for (i, (name, look)) in entries.iter().enumerate() {
        let x = 60 + 150 * i;
        text += &format!("<path d=\"M{x} 56H{}\" stroke=\"#222\" {look}/>\n<text x=\"{}\" y=\"60\">{name}</text>\n", x + 30, x + 38);
    }
    text
}

pub fn growth(rows: &[Row]) -> String {
    let title = "Time of a call by the length of its file";
    let mut text = format!(
        "<svg xmlns=\"http://www.w3.org/2000/svg\" viewBox=\"0 0 {PICTURE_WIDTH} 460\" width=\"{PICTURE_WIDTH}\" height=\"460\" font-family=\"sans-serif\" font-size=\"13\" fill=\"#222\">\n",
    );
    text += &format!("<title>{title}</title>\n<rect width=\"{PICTURE_WIDTH}\" height=\"460\" fill=\"#ffffff\"/>\n");
    text += &format!("<text x=\"20\" y=\"30\" font-size=\"16\" font-weight=\"bold\">{title}</text>\n");
    text += &legend();
    for one in &PANELS {
        text += &panel(one, rows);
    }
    text + "</svg>\n"
}
