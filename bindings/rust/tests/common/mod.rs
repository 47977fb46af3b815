//! What several tests share: both kinds, 01's eight-prefix table, and the lists that a build in elements, as a tree bitmap or of rules
//! leaves. Every place of a list is lent with its mark: 7 in scratch, 9 in the others.
#![allow(dead_code)] // each test takes what it needs

use hongsamuk::*;

pub const KINDS: [Kind; 2] = [Kind::Fixed, Kind::Variable];

pub const EIGHT: Table = Table {
    width: 7,
    links: LINKS,
    value: &[0, 64, 68, 80, 96, 96, 96, 96],
    length: &[1, 1, 5, 3, 2, 4, 6, 7],
    hop: &[1, 2, 5, 4, 3, 6, 7, 8],
};
/// The words of scratch that it takes in elements: it has 10 nodes.
pub const WORDS: usize = 10 * SCRATCH_ROW;

#[derive(PartialEq, Debug)]
pub struct Made {
    pub built: Built,
    pub scratch: Vec<u64>,
    pub hop: Vec<u16>,
    pub length: Vec<u8>,
    pub link: Vec<u32>,
    pub stride: Vec<u8>,
}

impl Made {
    /// A build with so much scratch, and so many places in the hop, length, link and stride list.
    pub fn in_lists(kind: Kind, levels: u32, table: Table, words: usize, lists: [usize; 4]) -> Made {
        let [hops, lengths, links, strides] = lists;
        let (mut scratch, mut hop, mut length) = (vec![7; words], vec![9; hops], vec![9; lengths]);
        let (mut link, mut stride) = (vec![9; links], vec![9; strides]);
        let rows = RowsMut { hop: &mut hop, length: &mut length, link: &mut link, stride: &mut stride };
        let built = build(kind, levels, table, &mut scratch, rows);
        Made { built, scratch, hop, length, link, stride }
    }

    /// The same with four lists of one length.
    pub fn of(kind: Kind, levels: u32, table: Table, words: usize, room: usize) -> Made {
        Made::in_lists(kind, levels, table, words, [room; 4])
    }

    pub fn rows(&self) -> Rows<'_> {
        Rows { hop: &self.hop, length: &self.length, link: &self.link, stride: &self.stride }
    }

    pub fn lookup(&self, address: u32) -> Answer {
        lookup(&self.built.record, self.rows(), address)
    }

    /// Whether every place of the four lists still has its mark.
    pub fn is_untouched(&self) -> bool {
        let bytes = self.length.iter().chain(&self.stride).map(|x| u32::from(*x));
        bytes.chain(self.hop.iter().map(|x| u32::from(*x))).chain(self.link.iter().copied()).all(|x| x == 9)
    }
}

#[derive(Clone, PartialEq, Debug)]
pub struct MadeBitmap {
    pub built: BuiltBitmap,
    pub scratch: Vec<u64>,
    pub internal: Vec<u16>,
    pub external: Vec<u16>,
    pub first_child: Vec<u32>,
    pub first_hop: Vec<u32>,
    pub hop_row: Vec<u16>,
}

impl MadeBitmap {
    pub fn of(table: Table, words: usize, supernodes: usize, hops: usize) -> MadeBitmap {
        let (mut scratch, mut hop_row) = (vec![7; words], vec![9; hops]);
        let (mut internal, mut external) = (vec![9; supernodes], vec![9; supernodes]);
        let (mut first_child, mut first_hop) = (vec![9; supernodes], vec![9; supernodes]);
        let rows = BitmapRowsMut {
            internal: &mut internal,
            external: &mut external,
            first_child: &mut first_child,
            first_hop: &mut first_hop,
            hop_row: &mut hop_row,
        };
        let built = build_bitmap(table, &mut scratch, rows);
        MadeBitmap { built, scratch, internal, external, first_child, first_hop, hop_row }
    }

    pub fn lookup(&self, address: u32) -> Answer {
        let rows = BitmapRows {
            internal: &self.internal,
            external: &self.external,
            first_child: &self.first_child,
            first_hop: &self.first_hop,
            hop_row: &self.hop_row,
        };
        lookup_bitmap(&self.built.record, rows, address)
    }

    /// Whether every row and hop still has its mark.
    pub fn is_untouched(&self) -> bool {
        let maps = self.internal.iter().chain(&self.external).chain(&self.hop_row);
        maps.map(|x| u32::from(*x)).chain(self.first_child.iter().chain(&self.first_hop).copied()).all(|x| x == 9)
    }
}

#[derive(Clone, PartialEq, Debug)]
pub struct MadeRules {
    pub built: BuiltRules,
    pub scratch: Vec<u64>,
    pub hop: Vec<u16>,
    pub length: Vec<u8>,
    pub link: Vec<u32>,
    pub stride: Vec<u8>,
    pub list: Vec<u32>,
}

impl MadeRules {
    /// A build with so much scratch, so many places in each element list, and so many numbers in the list of tries.
    pub fn of(kind: Kind, levels: u32, rules: Rules, words: usize, room: usize, numbers: usize) -> MadeRules {
        let (mut scratch, mut hop, mut length) = (vec![7; words], vec![9; room], vec![9; room]);
        let (mut link, mut stride, mut list) = (vec![9; room], vec![9; room], vec![9; numbers]);
        let rows = RowsMut { hop: &mut hop, length: &mut length, link: &mut link, stride: &mut stride };
        let built = build_rules(kind, levels, rules, &mut scratch, rows, &mut list);
        MadeRules { built, scratch, hop, length, link, stride, list }
    }

    pub fn classify(&self, dest: u32, source: u32) -> Verdict {
        let rows = Rows { hop: &self.hop, length: &self.length, link: &self.link, stride: &self.stride };
        classify(&self.built.record, rows, &self.list, dest, source)
    }

    /// Whether every place of the four element lists and of the list of tries still has its mark.
    pub fn is_untouched(&self) -> bool {
        let bytes = self.length.iter().chain(&self.stride).map(|x| u32::from(*x));
        let numbers = self.link.iter().chain(&self.list).copied();
        bytes.chain(self.hop.iter().map(|x| u32::from(*x))).chain(numbers).all(|x| x == 9)
    }
}
