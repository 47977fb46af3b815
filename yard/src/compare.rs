//! `yard compare`: every kind and every number of levels side by side, and whether one table gives one answer.

use std::time::Duration;

use hongsamuk::{Answer, Kind, ELEMENTS, LEVELS};

use crate::arrays::{Arrays, How, Refusal, Strides, ROOM};
use crate::dotted::{dotted, grouped};
use crate::routes::{Routes, TableFile};
use crate::shown::{columns, in_words, reads, size, NONE};
use crate::{chart, files, words, Problem};

/// One build beside the others.
pub struct Compared {
    pub how: How,
    pub result: Result<Measured, Refusal>,
}

pub struct Measured {
    /// Elements, or supernodes.
    pub count: u32,
    /// The size in words.
    pub size: String,
    pub bytes: usize,
    pub most_reads: u32,
    pub time: Duration,
}

pub fn run(table: &TableFile, svg: Option<&str>) -> Result<String, Problem> {
    let routes = Routes::read(table)?;
    let mut held = Held::at(edges(&routes));
    let compared = ways().map(|how| compared(how, &routes, &mut held)).collect::<Result<Vec<_>, _>>()?;
    if let Some(file) = svg {
        files::write(file, &chart::picture(&routes.title(), &compared))?;
    }
    Ok(format!("{}{}", table_of(&compared), held.verdict()))
}

/// Every kind with every number of levels, and the bitmap.
fn ways() -> impl Iterator<Item = How> {
    let levels = |kind| (1..=LEVELS as u32).map(move |levels| How::Elements(Strides { kind, levels }));
    levels(Kind::Fixed).chain(levels(Kind::Variable)).chain([How::Bitmap])
}

fn compared(how: How, routes: &Routes, held: &mut Held) -> Result<Compared, Problem> {
    let (arrays, time) = match Arrays::build(how, routes.table()) {
        Ok(built) => built,
        // Too large a build is worth a line of its own; nothing else may be refused here.
        Err(refusal @ Refusal { number: ROOM, .. }) => return Ok(Compared { how, result: Err(refusal) }),
        Err(refusal) => return Err(words::of_build(refusal, routes, how)),
    };
    let most_reads = held.hold(how, &arrays)?;
    let measured = Measured { count: arrays.count(), size: size(&arrays), bytes: arrays.bytes(), most_reads, time };
    Ok(Compared { how, result: Ok(measured) })
}

/// The first and the last address of each route and of all, and their neighbours.
///
/// Each block or supernode of a build lies on the path of some route's first address, so the most reads of all addresses are found here.
pub fn edges(routes: &Routes) -> Vec<u32> {
    let ends = routes.routes.iter().flat_map(|route| [route.prefix.first(), route.prefix.last()]);
    let ends = ends.chain([0, u32::MAX]);
    let mut addresses: Vec<u32> = ends.flat_map(|end| [end.saturating_sub(1), end, end.saturating_add(1)]).collect();
    addresses.sort_unstable();
    addresses.dedup();
    addresses
}

/// Builds held against each other: all against the first, whose answers are kept.
pub struct Held {
    addresses: Vec<u32>,
    first: Option<(How, Vec<Answer>)>,
    builds: usize,
}

impl Held {
    pub fn at(addresses: Vec<u32>) -> Held {
        Held { addresses, first: None, builds: 0 }
    }

    /// The most reads of a build, which must answer each address as the first one does.
    pub fn hold(&mut self, how: How, arrays: &Arrays) -> Result<u32, Problem> {
        let answers: Vec<Answer> = self.addresses.iter().map(|address| arrays.lookup(*address)).collect();
        let mut most = 0;
        for (i, address) in self.addresses.iter().enumerate() {
            most = most.max(reads(answers[i]).ok_or_else(|| self.difference(how, *address, answers[i], i))?);
            if self.first.as_ref().is_some_and(|(_, first)| first[i].won() != answers[i].won()) {
                return Err(self.difference(how, *address, answers[i], i));
            }
        }
        self.builds += 1;
        self.first.get_or_insert((how, answers));
        Ok(most)
    }

    fn difference(&self, how: How, address: u32, answer: Answer, i: usize) -> Problem {
        let said = in_words(address, answer);
        let first = match &self.first {
            Some((first, answers)) => format!("{first} answers {}, ", in_words(address, answers[i])),
            None => String::new(),
        };
        Problem(format!("one table, two answers: {}: {first}{how} answers {said}", dotted(address)))
    }

    pub fn verdict(&self) -> String {
        let (addresses, builds) = (grouped(self.addresses.len() as u64), self.builds);
        format!("one table, one answer: {addresses} addresses, {builds} builds\n")
    }
}

fn table_of(compared: &[Compared]) -> String {
    let head = ["kind", "levels", "elements", "bytes", "most reads", "build, ms"].map(String::from);
    let rows: Vec<_> = std::iter::once(head).chain(compared.iter().map(row)).collect();
    let mut text = columns(&rows, [false, true, true, true, true, true]);
    if compared.iter().any(|one| one.result.is_err()) {
        let most = grouped(ELEMENTS.into());
        text.push_str(&format!("refused ({ROOM}): more than {most} elements, which no build may have\n"));
    }
    if let Some(Compared { result: Ok(bitmap), .. }) = compared.iter().find(|one| one.how == How::Bitmap) {
        text.push_str(&format!("bitmap: {}; it has no levels, and a supernode is no element\n", bitmap.size));
    }
    text
}

fn row(one: &Compared) -> [String; 6] {
    let (kind, levels) = match one.how {
        How::Elements(strides) => (strides.kind_word(), strides.levels.to_string()),
        How::Bitmap => ("bitmap", NONE.into()),
    };
    match &one.result {
        Ok(measured) => [
            kind.into(),
            levels,
            grouped(measured.count.into()),
            grouped(measured.bytes as u64),
            measured.most_reads.to_string(),
            format!("{:.3}", measured.time.as_secs_f64() * 1000.0),
        ],
        Err(refusal) => {
            let refused = format!("refused ({})", refusal.number);
            [kind.into(), levels, grouped(refusal.detail), NONE.into(), NONE.into(), refused]
        }
    }
}
