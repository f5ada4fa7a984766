//! A small writer of SVG: lines, rectangles, circles and text on white.

use std::fmt::Write;

/// A colour that is told apart from the others with any colour vision, and is readable on white.
pub const TILED: &str = "#0072b2";
pub const PLAIN: &str = "#e69f00";
pub const NEST: &str = "#009e73";
pub const ODOMETER: &str = "#b03a8c";
pub const INK: &str = "#222222";
pub const GRID: &str = "#dddddd";

/// Where a text is, relative to its point.
#[derive(Clone, Copy)]
pub enum Anchor {
    Start,
    Middle,
    End,
}

pub struct Svg {
    width: f64,
    height: f64,
    body: String,
}

impl Svg {
    pub fn new(width: f64, height: f64) -> Self {
        Self { width, height, body: String::new() }
    }

    pub fn line(&mut self, [x1, y1]: [f64; 2], [x2, y2]: [f64; 2], colour: &str, width: f64) {
        self.put(format!(
            r#"<line x1="{x1:.1}" y1="{y1:.1}" x2="{x2:.1}" y2="{y2:.1}" stroke="{colour}" stroke-width="{width}"/>"#
        ));
    }

    pub fn bar(&mut self, [x, y]: [f64; 2], [width, height]: [f64; 2], colour: &str) {
        self.put(format!(r#"<rect x="{x:.1}" y="{y:.1}" width="{width:.1}" height="{height:.1}" fill="{colour}"/>"#));
    }

    pub fn dot(&mut self, [x, y]: [f64; 2], colour: &str) {
        self.put(format!(r#"<circle cx="{x:.1}" cy="{y:.1}" r="4" fill="{colour}"/>"#));
    }

    pub fn text(&mut self, [x, y]: [f64; 2], anchor: Anchor, size: u32, text: &str) {
        let anchor = match anchor {
            Anchor::Start => "start",
            Anchor::Middle => "middle",
            Anchor::End => "end",
        };
        let text = text.replace('&', "&amp;").replace('<', "&lt;").replace('>', "&gt;");
        self.put(format!(
            r#"<text x="{x:.1}" y="{y:.1}" text-anchor="{anchor}" font-size="{size}" fill="{INK}">{text}</text>"#
        ));
    }

    /// A text that reads upwards.
    pub fn text_upwards(&mut self, [x, y]: [f64; 2], size: u32, text: &str) {
        self.put(format!(
            r#"<text transform="translate({x:.1} {y:.1}) rotate(-90)" text-anchor="middle" font-size="{size}" fill="{INK}">{text}</text>"#
        ));
    }

    fn put(&mut self, element: String) {
        writeln!(self.body, "{element}").expect("a string takes any text");
    }

    pub fn finish(&self) -> String {
        let Self { width, height, body } = self;
        format!(
            r##"<svg xmlns="http://www.w3.org/2000/svg" width="{width}" height="{height}" viewBox="0 0 {width} {height}" font-family="sans-serif">
<rect width="{width}" height="{height}" fill="#ffffff"/>
{body}</svg>
"##
        )
    }
}

/// Names beside squares of their colours, in one line below the title.
pub fn legend(svg: &mut Svg, left: f64, entries: &[(&str, &str)]) {
    let mut x = left;
    for (colour, name) in entries {
        svg.bar([x, 47.0], [14.0, 14.0], colour);
        svg.text([x + 20.0, 59.0], Anchor::Start, 14, name);
        x += 50.0 + 7.5 * name.len() as f64;
    }
}
