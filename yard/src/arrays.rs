//! The library's arrays of a table, of any kind. Room is lent as the library asks for it: each refusal for room says what is needed.

use std::fmt;
use std::time::{Duration, Instant};

use hongsamuk::{build, build_bitmap, lookup, lookup_bitmap, Answer, Bitmap, BitmapRows, BitmapRowsMut};
use hongsamuk::{Kind, Outcome, Record, Rows, RowsMut, Table, ELEMENTS, NODE_ROW, SCRATCH_ROW};

/// Numbers of the refusals for room: too little scratch, too few rows.
const SCRATCH: u32 = 6;
pub const ROOM: u32 = 7;

/// Bytes of a row: of the four element lists, and of the four lists of supernodes; and of a hop row.
pub const ELEMENT_BYTES: usize = 8;
const SUPERNODE_BYTES: usize = 12;
const HOP_BYTES: usize = 2;

/// A refusal by number; what its detail says, the bureau's page says for each number.
#[derive(Clone, Copy, PartialEq, Eq, Debug)]
pub struct Refusal {
    pub number: u32,
    pub detail: u64,
}

/// A kind of stride choice and the most levels.
#[derive(Clone, Copy, PartialEq, Eq, Debug)]
pub struct Strides {
    pub kind: Kind,
    pub levels: u32,
}

impl Strides {
    /// The kind as the tablet's text has it.
    pub fn kind_word(self) -> &'static str {
        match self.kind {
            Kind::Fixed => "fst",
            Kind::Variable => "vst",
        }
    }
}

impl fmt::Display for Strides {
    fn fmt(&self, f: &mut fmt::Formatter) -> fmt::Result {
        let levels = if self.levels == 1 { "level" } else { "levels" };
        write!(f, "{} with at most {} {levels}", self.kind_word(), self.levels)
    }
}

/// How a table is built.
#[derive(Clone, Copy, PartialEq, Eq, Debug)]
pub enum How {
    Elements(Strides),
    Bitmap,
}

impl fmt::Display for How {
    fn fmt(&self, f: &mut fmt::Formatter) -> fmt::Result {
        match self {
            How::Elements(strides) => strides.fmt(f),
            How::Bitmap => f.write_str("bitmap"),
        }
    }
}

/// A record and its element rows.
#[derive(Default)]
pub struct Elements {
    pub record: Record,
    pub hop: Vec<u16>,
    pub length: Vec<u8>,
    pub link: Vec<u32>,
    pub stride: Vec<u8>,
}

impl Elements {
    /// Builds the table, and says how long the build itself took.
    pub fn build(strides: Strides, table: Table) -> Result<(Elements, Duration), Refusal> {
        let mut elements = Elements::default();
        let took = lend(&mut elements, SCRATCH_ROW, Elements::make_room, |elements, scratch| {
            let built = build(strides.kind, strides.levels, table, scratch, elements.room());
            elements.record = built.record;
            built.outcome
        })?;
        Ok((elements, took))
    }

    fn make_room(&mut self, rows: usize) {
        (self.hop, self.length) = (vec![0; rows], vec![0; rows]);
        (self.link, self.stride) = (vec![0; rows], vec![0; rows]);
    }

    fn room(&mut self) -> RowsMut<'_> {
        let Elements { hop, length, link, stride, .. } = self;
        RowsMut { hop, length, link, stride }
    }

    pub fn lookup(&self, address: u32) -> Answer {
        let Elements { record, hop, length, link, stride } = self;
        lookup(record, Rows { hop, length, link, stride }, address)
    }
}

/// A tree bitmap: a record, four lists of supernodes, and the hops.
#[derive(Default)]
pub struct Supernodes {
    pub record: Bitmap,
    pub internal: Vec<u16>,
    pub external: Vec<u16>,
    pub first_child: Vec<u32>,
    pub first_hop: Vec<u32>,
    pub hop_row: Vec<u16>,
}

impl Supernodes {
    /// Builds the table, and says how long the build itself took.
    pub fn build(table: Table) -> Result<(Supernodes, Duration), Refusal> {
        // There are as many hops as entries.
        let mut supernodes = Supernodes { hop_row: vec![0; table.hop.len()], ..Supernodes::default() };
        let took = lend(&mut supernodes, NODE_ROW, Supernodes::make_room, |supernodes, scratch| {
            let built = build_bitmap(table, scratch, supernodes.room());
            supernodes.record = built.record;
            built.outcome
        })?;
        Ok((supernodes, took))
    }

    fn make_room(&mut self, rows: usize) {
        (self.internal, self.external) = (vec![0; rows], vec![0; rows]);
        (self.first_child, self.first_hop) = (vec![0; rows], vec![0; rows]);
    }

    fn room(&mut self) -> BitmapRowsMut<'_> {
        let Supernodes { internal, external, first_child, first_hop, hop_row, .. } = self;
        BitmapRowsMut { internal, external, first_child, first_hop, hop_row }
    }

    pub fn lookup(&self, address: u32) -> Answer {
        let Supernodes { record, internal, external, first_child, first_hop, hop_row } = self;
        lookup_bitmap(record, BitmapRows { internal, external, first_child, first_hop, hop_row }, address)
    }
}

/// Builds with the scratch and then the rows that the refusals ask for, each once; says how long the accepted build took.
fn lend<A>(
    arrays: &mut A,
    scratch_row: usize,
    make_room: fn(&mut A, usize),
    build: impl Fn(&mut A, &mut [u64]) -> Outcome,
) -> Result<Duration, Refusal> {
    let (mut scratch, mut has_room) = (Vec::new(), false);
    loop {
        let start = Instant::now();
        let outcome = build(arrays, &mut scratch);
        let took = start.elapsed();
        match outcome {
            Outcome::Accepted => return Ok(took),
            Outcome::Refused { number: SCRATCH, detail } if scratch.is_empty() => {
                scratch = vec![0; detail as usize * scratch_row];
            }
            Outcome::Refused { number: ROOM, detail } if !has_room && detail <= ELEMENTS.into() => {
                make_room(arrays, detail as usize);
                has_room = true;
            }
            Outcome::Refused { number, detail } => return Err(Refusal { number, detail }),
        }
    }
}

/// The arrays of one build.
pub enum Arrays {
    Elements(Elements),
    Bitmap(Supernodes),
}

impl Arrays {
    pub fn build(how: How, table: Table) -> Result<(Arrays, Duration), Refusal> {
        match how {
            How::Elements(strides) => {
                Elements::build(strides, table).map(|(made, took)| (Arrays::Elements(made), took))
            }
            How::Bitmap => Supernodes::build(table).map(|(made, took)| (Arrays::Bitmap(made), took)),
        }
    }

    pub fn lookup(&self, address: u32) -> Answer {
        match self {
            Arrays::Elements(elements) => elements.lookup(address),
            Arrays::Bitmap(supernodes) => supernodes.lookup(address),
        }
    }

    /// How many elements, or supernodes.
    pub fn count(&self) -> u32 {
        match self {
            Arrays::Elements(elements) => elements.record.elements,
            Arrays::Bitmap(supernodes) => supernodes.record.supernodes,
        }
    }

    /// The bytes of the rows, the record apart.
    pub fn bytes(&self) -> usize {
        match self {
            Arrays::Elements(elements) => elements.record.elements as usize * ELEMENT_BYTES,
            Arrays::Bitmap(supernodes) => {
                let record = supernodes.record;
                record.supernodes as usize * SUPERNODE_BYTES + record.hops as usize * HOP_BYTES
            }
        }
    }
}
