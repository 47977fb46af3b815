//! The chart of `yard compare`: levels across, elements up, a line a kind. What more levels buy.

use hongsamuk::{Kind, ELEMENTS, LEVELS};

use crate::arrays::{How, Strides, ELEMENT_BYTES};
use crate::compare::{Compared, Measured};
use crate::dotted::grouped;
use crate::picture::{Picture, Place, WIDE};
use crate::shown::counted;

const HIGH: f64 = 720.0;
/// The field of the lines.
const LEFT: f64 = 120.0;
const RIGHT: f64 = WIDE - 120.0;
const TOP: f64 = 170.0;
const BOTTOM: f64 = HIGH - 70.0;

const STYLE: &str = "\
line { stroke: #dde3ea }
polyline { fill: none; stroke-width: 2 }
.frame { fill: none; stroke: #8494a5 }
.axis { font-size: 13px }
polyline.fst { stroke: #1f6fb2 }
circle.fst { fill: #1f6fb2; stroke: #1f6fb2 }
polyline.vst { stroke: #d9650b }
circle.vst { fill: #d9650b; stroke: #d9650b }
circle.refused { fill: #ffffff; stroke-width: 1.5 }
line.bitmap { stroke: #2e8b57; stroke-width: 2; stroke-dasharray: 8 5 }
line.most { stroke: #b3261e; stroke-dasharray: 3 4 }
text.most { fill: #b3261e }
";

/// Numbers up, each step ten times the one before.
struct Scale {
    low: f64,
    high: f64,
}

impl Scale {
    /// Whole steps around these numbers of elements.
    fn around(numbers: &[f64]) -> Scale {
        let steps = numbers.iter().map(|number| number.max(1.0).log10());
        let low = steps.clone().fold(f64::INFINITY, f64::min).floor();
        let high = steps.fold(low + 1.0, f64::max).ceil();
        Scale { low, high }
    }

    fn up(&self, elements: f64) -> f64 {
        BOTTOM - (elements.max(1.0).log10() - self.low) / (self.high - self.low) * (BOTTOM - TOP)
    }

    fn has(&self, elements: f64) -> bool {
        (self.low..=self.high).contains(&elements.log10())
    }
}

fn across(levels: u32) -> f64 {
    let step = (RIGHT - LEFT - 40.0) / (LEVELS - 1) as f64;
    LEFT + 20.0 + step * f64::from(levels - 1)
}

/// The elements that a build takes; a bitmap's bytes as so many elements.
fn elements(one: &Compared) -> f64 {
    match &one.result {
        Ok(measured) => measured.bytes as f64 / ELEMENT_BYTES as f64,
        Err(refusal) => refusal.detail as f64,
    }
}

/// The chart of a table, whose name is the title's.
pub fn picture(name: &str, compared: &[Compared]) -> String {
    let scale = Scale::around(&compared.iter().map(elements).collect::<Vec<_>>());
    let mut picture = Picture::default();
    let title = format!("What more levels buy: {name}");
    picture.title((LEFT, 36.0), &title);
    frame(&mut picture, &scale);
    limit(&mut picture, &scale);
    for kind in [Kind::Fixed, Kind::Variable] {
        line(&mut picture, &scale, kind, compared);
    }
    for bitmap in compared.iter().filter(|one| one.how == How::Bitmap) {
        let up = scale.up(elements(bitmap));
        picture.line("bitmap", (LEFT, up), (RIGHT, up));
    }
    legend(&mut picture, compared);
    picture.file(&title, STYLE, HIGH)
}

/// Steps, numbers and names of both sides: elements at the left, their bytes at the right.
fn frame(picture: &mut Picture, scale: &Scale) {
    for step in scale.low as i32..=scale.high as i32 {
        let number = 10u64.pow(step as u32);
        let up = scale.up(number as f64);
        // No element at all has no place of its own on such a scale.
        let most = if step == 0 { "up to " } else { "" };
        picture.line("step", (LEFT, up), (RIGHT, up));
        picture.text("end", (LEFT - 8.0, up + 4.0), &format!("{most}{}", grouped(number)));
        picture.text("start", (RIGHT + 8.0, up + 4.0), &format!("{most}{}", grouped(number * ELEMENT_BYTES as u64)));
    }
    for levels in 1..=LEVELS as u32 {
        let x = across(levels);
        picture.line("step", (x, TOP), (x, BOTTOM));
        picture.text("middle", (x, BOTTOM + 20.0), &levels.to_string());
    }
    picture.rectangle("frame", (LEFT, TOP), RIGHT - LEFT, BOTTOM - TOP);
    picture.text("axis end", (LEFT - 8.0, TOP - 14.0), "elements");
    picture.text("axis", (RIGHT + 8.0, TOP - 14.0), "bytes");
    picture.text("axis middle", ((LEFT + RIGHT) / 2.0, BOTTOM + 46.0), "at most so many levels (k)");
}

fn limit(picture: &mut Picture, scale: &Scale) {
    let most = f64::from(ELEMENTS);
    if scale.has(most) {
        let up = scale.up(most);
        picture.line("most", (LEFT, up), (RIGHT, up));
        picture.text("most end", (RIGHT - 10.0, up - 6.0), &format!("no build above {}", grouped(ELEMENTS.into())));
    }
}

/// The line of a kind, a dot a build; hollow where it is refused.
fn line(picture: &mut Picture, scale: &Scale, kind: Kind, compared: &[Compared]) {
    let (class, radius) = look(kind);
    let mut places: Vec<Place> = Vec::new();
    let mut dots = Picture::default();
    for one in compared {
        let How::Elements(strides @ Strides { levels, .. }) = one.how else { continue };
        if strides.kind != kind {
            continue;
        }
        let place = (across(levels), scale.up(elements(one)));
        places.push(place);
        match &one.result {
            Ok(measured) => dots.dot(class, place, radius, &format!("{strides}: {}", said(measured))),
            Err(refusal) => {
                let said = format!("{strides}: refused ({}), {} elements", refusal.number, grouped(refusal.detail));
                dots.dot(&format!("{class} refused"), place, radius, &said)
            }
        }
    }
    picture.lines(class, &places);
    picture.join(dots);
}

/// Where both kinds take as much, the dots of the second stand within those of the first.
fn look(kind: Kind) -> (&'static str, f64) {
    match kind {
        Kind::Fixed => ("fst", 6.0),
        Kind::Variable => ("vst", 3.5),
    }
}

fn said(measured: &Measured) -> String {
    let (bytes, reads) = (grouped(measured.bytes as u64), counted(measured.most_reads.into(), "read"));
    format!("{}, {bytes} bytes, at most {reads}", measured.size)
}

/// Above the field, where no line can run into it.
fn legend(picture: &mut Picture, compared: &[Compared]) {
    let mut y = 62.0;
    for (kind, meaning) in [(Kind::Fixed, "fst: one stride a level"), (Kind::Variable, "vst: one stride a block")] {
        let (class, radius) = look(kind);
        picture.lines(class, &[(LEFT, y), (LEFT + 40.0, y)]);
        picture.dot(class, (LEFT + 20.0, y), radius, meaning);
        explain(picture, &mut y, meaning);
    }
    for bitmap in compared.iter().filter(|one| one.how == How::Bitmap).filter_map(|one| one.result.as_ref().ok()) {
        picture.line("bitmap", (LEFT, y), (LEFT + 40.0, y));
        explain(picture, &mut y, &format!("bitmap, by its bytes: {}", said(bitmap)));
    }
    picture.dot("fst refused", (LEFT + 20.0, y), look(Kind::Fixed).1, "refused");
    explain(picture, &mut y, "hollow: refused, for it would take so many elements");
}

/// A line of the legend; the next one stands below.
fn explain(picture: &mut Picture, y: &mut f64, meaning: &str) {
    picture.text("start", (LEFT + 50.0, *y + 4.0), meaning);
    *y += 22.0;
}
