//! `yard draw`: the blocks of a small table, and an address's path through them.

use hongsamuk::{Answer, Kind};

use crate::arrays::{Elements, How, Strides};
use crate::blocks::{blocks, path, Block, Run};
use crate::dotted::{dotted, hop_phrase};
use crate::picture::Picture;
use crate::places::{height, is_beside, middle, places, Places, ARRIVAL, BLOCK, HEAD, MARGIN, ROW};
use crate::routes::{Routes, TableFile};
use crate::shown::{counted, element_size, in_words, reads};
use crate::{files, words, Problem};

/// Strides up to this are shown in binary digits, wider ones in numbers, which take less room.
const DIGITS: u8 = 7;
/// From a block's left side to its text, from the text to its right side, and from a row's top to its line.
const INDENT: f64 = 12.0;
const OUTDENT: f64 = 6.0;
const LINE: f64 = 13.0;
/// The room of the longest hop and length, in front of which a row says where it links to.
const HOP: f64 = 104.0;
/// An arrow that leaves a band or arrives there.
const STUB: f64 = 18.0;
/// Below the blocks: a line each for the answer and for what is what.
const FOOT: f64 = 60.0;

const STYLE: &str = "\
.block { fill: #eef2f6; stroke: #5b6b7c }
.head { font-weight: bold }
.small { font-size: 11px; fill: #5b6b7c }
.row { fill: #ffffff; stroke: #ccd4dc }
.none { fill: #9aa7b4 }
.level { font-size: 13px; fill: #5b6b7c }
.link { fill: none; stroke: #5b6b7c; stroke-width: 1.2; marker-end: url(#arrow) }
.arrow { fill: #5b6b7c }
.on { fill: #ffe9cf; stroke: #d9650b; stroke-width: 1.5 }
.won { fill: #ffb45e; stroke: #d9650b; stroke-width: 2 }
.link-on { fill: none; stroke: #d9650b; stroke-width: 2.4; marker-end: url(#arrow-on) }
.arrow-on { fill: #d9650b }
.read { fill: #d9650b; stroke: #ffffff }
.count { fill: #ffffff; font-weight: bold; text-anchor: middle }
.answer { font-size: 14px; fill: #a84a00; font-weight: bold }
";

pub fn run(table: &TableFile, strides: Strides, address: Option<u32>, svg: &str) -> Result<String, Problem> {
    let routes = Routes::read(table)?;
    words::fits(routes.routes.len(), "routes", "picture").map_err(|problem| problem.at(&routes.name))?;
    let refused = |refusal| words::of_build(refusal, &routes, How::Elements(strides));
    let (elements, _) = Elements::build(strides, routes.table()).map_err(refused)?;
    let asked = address.map(|address| Asked::of(&elements, address)).transpose()?;
    let drawing = Drawing::of(&elements, strides, asked);
    let title = format!("{}: {strides}", routes.title());
    files::write(svg, &drawing.file(&title))?;
    let said = drawing.answer().map_or(String::new(), |answer| format!("{answer}\n"));
    Ok(format!("{}: {}\n{said}", files::name(svg), drawing.size()))
}

/// An address, what the library answers, and the rows that its lookup reads.
struct Asked {
    address: u32,
    answer: Answer,
    path: Vec<usize>,
    /// The row of the path whose hop won; none where no row's did.
    won: Option<usize>,
}

impl Asked {
    /// The path is followed here, so it is held to the library's answer.
    fn of(elements: &Elements, address: u32) -> Result<Asked, Problem> {
        let (answer, path) = (elements.lookup(address), path(elements, address));
        let won = path.iter().rev().find(|row| elements.hop[**row] != 0).copied();
        let (hop, length) = won.map_or((elements.record.floor, 0), |row| (elements.hop[row], elements.length[row]));
        let drawn = Some((hop, length)).filter(|_| hop != 0);
        if answer.won() != drawn || reads(answer) != Some(path.len() as u32) {
            return Err(Problem("the path drawn is not the one that the library read: a fault of yard".into())
                .at(dotted(address)));
        }
        Ok(Asked { address, answer, path, won })
    }
}

struct Drawing<'a> {
    elements: &'a Elements,
    strides: Strides,
    asked: Option<Asked>,
    blocks: Vec<Block>,
    places: Places,
}

impl Drawing<'_> {
    fn of(elements: &Elements, strides: Strides, asked: Option<Asked>) -> Drawing<'_> {
        let blocks = blocks(elements, asked.as_ref().map_or(&[], |asked| &asked.path));
        let places = places(&blocks);
        Drawing { elements, strides, asked, blocks, places }
    }

    /// The size of the build in words, and what it answers where no row has a hop.
    fn size(&self) -> String {
        let record = self.elements.record;
        let floor = match record.floor {
            0 => "no route of 0 bits".into(),
            hop => format!("{} by 0.0.0.0/0 where no row has a hop", hop_phrase(hop)),
        };
        let elements = element_size(record.elements.into(), record.strides[0].into());
        format!("{elements}, {}, {floor}", counted(self.blocks.len() as u64, "block"))
    }

    /// What was asked and answered, in words.
    fn answer(&self) -> Option<String> {
        let Asked { address, answer, path, .. } = self.asked.as_ref()?;
        let reads = counted(path.len() as u64, "read");
        Some(format!("{}: {}, {reads}", dotted(*address), in_words(*address, *answer)))
    }

    fn file(&self, title: &str) -> String {
        let mut picture = Picture::default();
        picture.title((MARGIN, 28.0), title);
        picture.text("level", (MARGIN, 50.0), &self.size());
        self.name_levels(&mut picture);
        for block in 0..self.blocks.len() {
            self.draw_block(&mut picture, block);
        }
        // Arrows and numbers lie over the blocks.
        for block in 0..self.blocks.len() {
            self.draw_links(&mut picture, block);
        }
        self.number_reads(&mut picture);
        if let Some(answer) = self.answer() {
            picture.text("answer", (MARGIN, self.places.bottom + FOOT - 38.0), &answer);
        }
        picture.text("small", (MARGIN, self.places.bottom + FOOT - 14.0), &legend());
        picture.file(title, STYLE, self.places.bottom + FOOT)
    }

    fn name_levels(&self, picture: &mut Picture) {
        for (i, place) in self.places.names.iter().enumerate() {
            let stride = match self.strides.kind {
                Kind::Fixed => format!(", stride {}", self.elements.record.strides[i]),
                Kind::Variable => String::new(),
            };
            picture.text("level", *place, &format!("level {}{stride}", i + 1));
        }
    }

    fn draw_block(&self, picture: &mut Picture, number: usize) {
        let (block, (x, y)) = (&self.blocks[number], self.places.corners[number]);
        picture.rectangle("block", (x, y), BLOCK, height(block));
        let head = format!("block {}: level {}, stride {}", number + 1, block.level, block.stride);
        picture.text("head", (x + INDENT, y + 16.0), &head);
        picture.text("small", (x + INDENT, y + 32.0), &block.under.to_string());
        picture.text("small end", (x + BLOCK - OUTDENT, y + 32.0), &format!("row {}", block.start));
        for (i, run) in block.runs.iter().enumerate() {
            let top = y + HEAD + ROW * i as f64;
            picture.rectangle(self.look(block, run), (x, top), BLOCK, ROW);
            picture.text("label", (x + INDENT, top + LINE), &label(run, block.stride));
            if let Some(child) = run.child {
                picture.text("small end", (x + BLOCK - OUTDENT - HOP, top + LINE), &format!("\u{2192} {}", child + 1));
            }
            let (class, hop) = hop_cell(run);
            picture.text(class, (x + BLOCK - OUTDENT, top + LINE), &hop);
        }
    }

    /// A row's class: the one that won, another of the path, or any other.
    fn look(&self, block: &Block, run: &Run) -> &'static str {
        let Some(asked) = &self.asked else { return "row" };
        match block.start + run.first {
            row if asked.won == Some(row) => "won",
            row if asked.path.contains(&row) => "on",
            _ => "row",
        }
    }

    fn draw_links(&self, picture: &mut Picture, number: usize) {
        let (block, (x, y)) = (&self.blocks[number], self.places.corners[number]);
        for (i, run) in block.runs.iter().enumerate() {
            let Some(child) = run.child else { continue };
            let class = if self.look(block, run) == "row" { "link" } else { "link-on" };
            let (from, (left, top)) = ((x + BLOCK, y + middle(i)), self.places.corners[child]);
            let to = (left, top + ARRIVAL);
            if is_beside(block.level) {
                picture.bend(class, from, to);
            } else {
                // To the next band: a short arrow here and one there. The row says the block's number.
                picture.line(class, from, (from.0 + STUB, from.1));
                picture.line(class, (to.0 - STUB, to.1), to);
            }
        }
    }

    fn number_reads(&self, picture: &mut Picture) {
        let Some(asked) = &self.asked else { return };
        for (block, (x, y)) in self.blocks.iter().zip(&self.places.corners) {
            for (i, run) in block.runs.iter().enumerate() {
                let Some(read) = asked.path.iter().position(|row| *row == block.start + run.first) else { continue };
                let (place, number) = ((*x, y + middle(i)), (read + 1).to_string());
                picture.dot("read", place, 9.0, &format!("read {number}"));
                picture.text("count", (place.0, place.1 + 4.0), &number);
            }
        }
    }
}

/// What is what in a block.
fn legend() -> String {
    format!(
        "A block: its number, the bits that lead to it, its first row. A row: its bits (a number where they are more than {DIGITS}), \
         the block that it links to, hop and length."
    )
}

/// The hop and the length of a row.
fn hop_cell(run: &Run) -> (&'static str, String) {
    match run.hop {
        0 => ("none end", "\u{2013}".into()),
        hop => ("end", format!("{} /{}", hop_phrase(hop), run.length)),
    }
}

/// The rows of a run, counted in their block.
fn label(run: &Run, stride: u8) -> String {
    let row = |row: usize| match stride {
        0..=DIGITS => format!("{row:0wide$b}", wide = stride.into()),
        _ => row.to_string(),
    };
    if run.first == run.last {
        return row(run.first);
    }
    format!("{}\u{2013}{}", row(run.first), row(run.last))
}

#[cfg(test)]
mod tests {
    use super::*;

    /// Rows that the library would not read, or reads otherwise, are not drawn as a path.
    #[test]
    fn a_path_is_held_to_the_library() {
        let routes =
            Routes::parse("t", 9, b"10.0.0.0/8 3\n10.20.0.0/16 4\n").unwrap_or_else(|problem| panic!("{problem}"));
        let strides = Strides { kind: Kind::Variable, levels: 4 };
        let (sound, _) = Elements::build(strides, routes.table()).unwrap_or_else(|refusal| panic!("{refusal:?}"));
        assert!(Asked::of(&sound, 0x0a140000).is_ok());
        let fewer = Elements { record: hongsamuk::Record { levels: 1, ..sound.record }, ..sound };
        assert!(Asked::of(&fewer, 0x0a140000).is_err());
    }
}
