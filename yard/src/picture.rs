//! Pictures in SVG, 1,200 pixels wide: shapes with the classes of one style sheet, on white, so that they are legible anywhere.

use std::fmt::Write;

pub const WIDE: f64 = 1200.0;

/// The letters of a title that the paper has room for.
const TITLE: usize = 105;

/// A place: to the right, and down.
pub type Place = (f64, f64);

#[derive(Default)]
pub struct Picture {
    shapes: String,
}

impl Picture {
    fn add(&mut self, shape: std::fmt::Arguments) {
        // Writing to a string cannot fail.
        let _ = writeln!(self.shapes, "{shape}");
    }

    pub fn rectangle(&mut self, class: &str, (x, y): Place, wide: f64, high: f64) {
        self.add(format_args!(
            "<rect class=\"{class}\" x=\"{x:.1}\" y=\"{y:.1}\" width=\"{wide:.1}\" height=\"{high:.1}\"/>"
        ));
    }

    pub fn line(&mut self, class: &str, (x1, y1): Place, (x2, y2): Place) {
        self.add(format_args!("<line class=\"{class}\" x1=\"{x1:.1}\" y1=\"{y1:.1}\" x2=\"{x2:.1}\" y2=\"{y2:.1}\"/>"));
    }

    /// Straight lines from place to place.
    pub fn lines(&mut self, class: &str, places: &[Place]) {
        let places: Vec<String> = places.iter().map(|(x, y)| format!("{x:.1},{y:.1}")).collect();
        self.add(format_args!("<polyline class=\"{class}\" points=\"{}\"/>", places.join(" ")));
    }

    /// A line that leaves to the right and arrives from the left.
    pub fn bend(&mut self, class: &str, (x1, y1): Place, (x2, y2): Place) {
        let middle = (x1 + x2) / 2.0;
        let d = format!("M{x1:.1},{y1:.1} C{middle:.1},{y1:.1} {middle:.1},{y2:.1} {x2:.1},{y2:.1}");
        self.add(format_args!("<path class=\"{class}\" d=\"{d}\"/>"));
    }

    /// A dot, and what is said where one points at it.
    pub fn dot(&mut self, class: &str, (x, y): Place, radius: f64, said: &str) {
        let said = escaped(said);
        self.add(format_args!(
            "<circle class=\"{class}\" cx=\"{x:.1}\" cy=\"{y:.1}\" r=\"{radius:.1}\"><title>{said}</title></circle>"
        ));
    }

    pub fn text(&mut self, class: &str, (x, y): Place, text: &str) {
        self.add(format_args!("<text class=\"{class}\" x=\"{x:.1}\" y=\"{y:.1}\">{}</text>", escaped(text)));
    }

    /// The title, cut where the paper ends.
    pub fn title(&mut self, place: Place, title: &str) {
        let cut: String = title.chars().take(TITLE).collect();
        let end = if cut == title { "" } else { "\u{2026}" };
        self.text("title", place, &(cut + end));
    }

    /// Puts the shapes of another on top.
    pub fn join(&mut self, other: Picture) {
        self.shapes.push_str(&other.shapes);
    }

    /// The whole file. `arrow` and `arrow-on` are the heads that a style sheet may put at a line's end.
    pub fn file(&self, title: &str, style: &str, high: f64) -> String {
        let mut file = format!(
            "<svg xmlns=\"http://www.w3.org/2000/svg\" width=\"{WIDE:.0}\" height=\"{high:.0}\" viewBox=\"0 0 {WIDE:.0} {high:.0}\">\n"
        );
        file.push_str(&format!("<title>{}</title>\n<style>\n{STYLE}{style}</style>\n<defs>\n", escaped(title)));
        for head in ["arrow", "arrow-on"] {
            file.push_str(&format!(
                "<marker id=\"{head}\" class=\"{head}\" viewBox=\"0 0 10 10\" refX=\"9\" refY=\"5\" markerUnits=\"userSpaceOnUse\" \
                 markerWidth=\"10\" markerHeight=\"10\" orient=\"auto\"><path d=\"M0,0 L10,5 L0,10 z\"/></marker>\n"
            ));
        }
        file.push_str("</defs>\n<rect class=\"paper\" width=\"100%\" height=\"100%\"/>\n");
        file + &self.shapes + "</svg>\n"
    }
}

const STYLE: &str = "\
text { font: 12px 'DejaVu Sans Mono', Menlo, Consolas, monospace; fill: #1c2733 }
.paper { fill: #ffffff }
.title { font-size: 16px; font-weight: bold }
.end { text-anchor: end }
.middle { text-anchor: middle }
";

/// Text as XML has it. Control characters, which XML has no place for, are gone from a file's name before (`files::name`).
fn escaped(text: &str) -> String {
    text.replace('&', "&amp;").replace('<', "&lt;").replace('>', "&gt;").replace('"', "&quot;")
}
