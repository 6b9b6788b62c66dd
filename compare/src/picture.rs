//! A picture of lines, as SVG.

use std::fmt::Write;

pub const OURS: &str = "#0b6e99";
pub const MEASURE: &str = "#5bb0d0";
pub const CRATE: &str = "#c8501e";
pub const PROTON: &str = "#6b7a3a";

pub struct Line {
    pub name: &'static str,
    pub colour: &'static str,
    pub points: Vec<(f64, f64)>,
}

pub struct Panel {
    pub title: &'static str,
    pub lines: Vec<Line>,
}

const WIDTH: f64 = 480.0;
const HEIGHT: f64 = 340.0;
const LEFT: f64 = 48.0;
const RIGHT: f64 = 122.0; // for the names of the lines
const TOP: f64 = 64.0;
const BOTTOM: f64 = 44.0;
const DEEPEST: f64 = 32.0;

/// Panels side by side, each from 0 up; the way along is 0 to 32 levels.
pub fn draw(title: &str, panels: &[Panel]) -> String {
    let width = WIDTH * panels.len() as f64;
    let mut svg = String::new();
    let _ = writeln!(
        svg,
        r##"<svg xmlns="http://www.w3.org/2000/svg" viewBox="0 0 {width} {HEIGHT}" font-family="sans-serif" font-size="12" fill="#222">
<rect width="100%" height="100%" fill="#fff"/>
<text x="{LEFT}" y="22" font-size="15">{title}</text>"##
    );
    for (i, panel) in panels.iter().enumerate() {
        let _ = writeln!(svg, r#"<g transform="translate({},0)">"#, i as f64 * WIDTH);
        draw_panel(&mut svg, panel);
        let _ = writeln!(svg, "</g>");
    }
    svg + "</svg>\n"
}

fn draw_panel(svg: &mut String, panel: &Panel) {
    let highest = panel.lines.iter().flat_map(|line| &line.points).fold(1.0, |most: f64, point| most.max(point.1));
    let step = step(highest);
    let top = (highest / step).ceil() * step;
    let x = |depth: f64| LEFT + depth / DEEPEST * (WIDTH - LEFT - RIGHT);
    let y = |time: f64| HEIGHT - BOTTOM - time / top * (HEIGHT - TOP - BOTTOM);

    let _ = writeln!(svg, r#"<text x="{LEFT}" y="{}" font-size="13">{}</text>"#, TOP - 14.0, panel.title);
    let mut time = 0.0;
    while time <= top {
        let (height, end) = (y(time), x(DEEPEST));
        let _ = writeln!(
            svg,
            r##"<path d="M{LEFT},{height:.1}H{end:.1}" stroke="#ddd"/><text x="{}" y="{:.1}" text-anchor="end">{time}</text>"##,
            LEFT - 6.0,
            height + 4.0
        );
        time += step;
    }
    for depth in [2, 8, 14, 20, 26, 32] {
        let _ = writeln!(
            svg,
            r#"<text x="{:.1}" y="{}" text-anchor="middle">{depth}</text>"#,
            x(depth as f64),
            HEIGHT - BOTTOM + 18.0
        );
    }
    let _ =
        writeln!(svg, r#"<text x="{:.1}" y="{}" text-anchor="middle">depth</text>"#, x(DEEPEST / 2.0), HEIGHT - BOTTOM + 36.0);

    // names stand at the ends of their lines, but not on one another
    let mut names: Vec<(f64, &Line)> =
        panel.lines.iter().map(|line| (y(line.points.last().map_or(0.0, |point| point.1)), line)).collect();
    names.sort_by(|a, b| a.0.total_cmp(&b.0));
    for i in 1..names.len() {
        names[i].0 = names[i].0.max(names[i - 1].0 + 14.0);
    }
    for (height, line) in names {
        let path: Vec<_> = line.points.iter().map(|&(depth, time)| format!("{:.1},{:.1}", x(depth), y(time))).collect();
        let colour = line.colour;
        let _ = writeln!(svg, r#"<polyline points="{}" fill="none" stroke="{colour}" stroke-width="2"/>"#, path.join(" "));
        for point in path {
            let (px, py) = point.split_once(',').expect("a point is two numbers");
            let _ = writeln!(svg, r#"<circle cx="{px}" cy="{py}" r="2.5" fill="{colour}"/>"#);
        }
        let _ =
            writeln!(svg, r#"<text x="{:.1}" y="{:.1}" fill="{colour}">{}</text>"#, x(DEEPEST) + 8.0, height + 4.0, line.name);
    }
}

/// A round number of which three to eight reach `highest`.
fn step(highest: f64) -> f64 {
    let power = 10f64.powf((highest / 4.0).log10().floor());
    [1.0, 2.0, 5.0, 10.0].into_iter().map(|part| part * power).find(|step| highest / step <= 6.0).unwrap_or(power * 10.0)
}
