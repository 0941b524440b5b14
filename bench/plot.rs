// Plots as SVG: panels of lines, each with its axes, its unit and a legend.
use std::fmt::Write;

const WIDTH: f64 = 520.0;
const HEIGHT: f64 = 400.0;
const LEFT: f64 = 70.0;
const RIGHT: f64 = 24.0;
const TOP: f64 = 62.0;
const BOTTOM: f64 = 56.0;

pub struct Series {
    pub name: &'static str,
    pub colour: &'static str,
    // Nanoseconds at each place.
    pub points: Vec<(f64, f64)>,
}

// How the times go up.
#[derive(Clone, Copy, PartialEq)]
pub enum Axis {
    Linear,
    Log,
}

pub struct Panel {
    pub title: String,
    pub across: &'static str,
    pub axis: Axis,
    pub series: Vec<Series>,
}

// A time in the unit that suits it.
pub fn time(nanoseconds: f64) -> String {
    let (value, unit) = match nanoseconds {
        t if t < 1e3 => (t, "ns"),
        t if t < 1e6 => (t / 1e3, "µs"),
        t if t < 1e9 => (t / 1e6, "ms"),
        t => (t / 1e9, "s"),
    };
    let digits = if value >= 100.0 || value.fract() == 0.0 {
        0
    } else if value >= 10.0 {
        1
    } else {
        2
    };
    format!("{value:.digits$} {unit}")
}

// The step among 1, 2 and 5 times a power of ten that gives about five.
fn step(most: f64) -> f64 {
    let rough = most / 5.0;
    let power = 10f64.powf(rough.log10().floor());
    [1.0, 2.0, 5.0, 10.0].into_iter().map(|k| k * power).find(|s| *s >= rough).unwrap_or(10.0 * power)
}

struct Scale {
    axis: Axis,
    least: f64,
    most: f64,
    ticks: Vec<f64>,
}

impl Scale {
    fn of(axis: Axis, values: impl Iterator<Item = f64> + Clone) -> Scale {
        let most = values.clone().fold(1.0, f64::max);
        if axis == Axis::Linear {
            let step = step(most);
            let steps = (most / step).ceil();
            let ticks = (0..=steps as u32).map(|k| f64::from(k) * step).collect();
            return Scale { axis, least: 0.0, most: steps * step, ticks };
        }
        let least = values.fold(most, f64::min);
        let (from, to) = (least.log10().floor() as i32, most.log10().ceil() as i32);
        Scale {
            axis,
            least: 10f64.powi(from),
            most: 10f64.powi(to),
            ticks: (from..=to).map(|k| 10f64.powi(k)).collect(),
        }
    }

    // How far up, from 0 to 1.
    fn up(&self, value: f64) -> f64 {
        match self.axis {
            Axis::Linear => (value - self.least) / (self.most - self.least),
            Axis::Log => (value / self.least).log10() / (self.most / self.least).log10(),
        }
    }
}

fn text(out: &mut String, x: f64, y: f64, anchor: &str, extra: &str, words: &str) {
    let _ = writeln!(out, r#"<text x="{x:.1}" y="{y:.1}" text-anchor="{anchor}" {extra}>{words}</text>"#);
}

fn line(out: &mut String, from: (f64, f64), to: (f64, f64), colour: &str, width: f64) {
    let _ = writeln!(
        out,
        r#"<line x1="{:.1}" y1="{:.1}" x2="{:.1}" y2="{:.1}" stroke="{colour}" stroke-width="{width}"/>"#,
        from.0, from.1, to.0, to.1
    );
}

impl Panel {
    fn most_across(&self) -> f64 {
        self.series.iter().flat_map(|s| &s.points).map(|p| p.0).fold(1.0, f64::max)
    }

    fn draw(&self, out: &mut String) {
        let scale = Scale::of(self.axis, self.series.iter().flat_map(|s| &s.points).map(|p| p.1));
        let most = self.most_across();
        let place = |(x, y): (f64, f64)| {
            (LEFT + x / most * (WIDTH - LEFT - RIGHT), HEIGHT - BOTTOM - scale.up(y) * (HEIGHT - TOP - BOTTOM))
        };
        self.frame(out, &scale, most, place);
        for (k, series) in self.series.iter().enumerate() {
            series.draw(out, place);
            let x = LEFT + 84.0 * k as f64;
            line(out, (x, TOP - 18.0), (x + 20.0, TOP - 18.0), series.colour, 3.0);
            text(out, x + 26.0, TOP - 14.0, "start", r#"font-size="12""#, series.name);
        }
    }

    fn frame(&self, out: &mut String, scale: &Scale, most: f64, place: impl Fn((f64, f64)) -> (f64, f64)) {
        text(out, LEFT, 24.0, "start", r#"font-size="15" font-weight="bold""#, &self.title);
        for tick in &scale.ticks {
            let (x, y) = place((0.0, *tick));
            line(out, (x, y), (WIDTH - RIGHT, y), "#dddddd", 1.0);
            text(
                out,
                x - 8.0,
                y + 4.0,
                "end",
                r#"font-size="12""#,
                &if *tick == 0.0 { "0".into() } else { time(*tick) },
            );
        }
        let by = step(most);
        for k in 0..=(most / by) as u32 {
            let (x, y) = place((f64::from(k) * by, scale.least));
            line(out, (x, y), (x, y + 5.0), "#333333", 1.0);
            text(out, x, y + 20.0, "middle", r#"font-size="12""#, &format!("{}", f64::from(k) * by));
        }
        let (x, y) = place((0.0, scale.least));
        line(out, (x, y), (WIDTH - RIGHT, y), "#333333", 1.0);
        line(out, (x, y), (x, TOP), "#333333", 1.0);
        text(out, (LEFT + WIDTH - RIGHT) / 2.0, HEIGHT - 14.0, "middle", r#"font-size="13""#, self.across);
    }
}

impl Series {
    fn draw(&self, out: &mut String, place: impl Fn((f64, f64)) -> (f64, f64)) {
        let places: Vec<(f64, f64)> = self.points.iter().map(|p| place(*p)).collect();
        let path: Vec<String> = places.iter().map(|(x, y)| format!("{x:.1},{y:.1}")).collect();
        let _ = writeln!(
            out,
            r#"<polyline points="{}" fill="none" stroke="{}" stroke-width="2"/>"#,
            path.join(" "),
            self.colour
        );
        for (x, y) in places {
            let _ = writeln!(out, r#"<circle cx="{x:.1}" cy="{y:.1}" r="2.6" fill="{}"/>"#, self.colour);
        }
    }
}

// The panels, two in a row.
pub fn draw(panels: &[Panel]) -> String {
    let rows = panels.len().div_ceil(2) as f64;
    let mut out = format!(
        r##"<svg xmlns="http://www.w3.org/2000/svg" viewBox="0 0 {} {}" font-family="sans-serif" fill="#222222">"##,
        2.0 * WIDTH,
        rows * HEIGHT
    );
    out += "\n<rect width=\"100%\" height=\"100%\" fill=\"#ffffff\"/>\n";
    for (k, panel) in panels.iter().enumerate() {
        let _ = writeln!(out, r#"<g transform="translate({} {})">"#, (k % 2) as f64 * WIDTH, (k / 2) as f64 * HEIGHT);
        panel.draw(&mut out);
        out += "</g>\n";
    }
    out + "</svg>\n"
}
