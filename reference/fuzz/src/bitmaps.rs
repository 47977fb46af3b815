//! A table as a tree bitmap: the archive's build and lookups and the reference's, compared in everything, and the hops and lengths
//! compared with those of the same table's elements.

use crate::bitmap_harm;
use crate::tally::Call;
use crate::trying::{c_answer, numbers, same, same_list, Same, Trial, SMALL};
use hongsamuk::raw;
use reference::bitmap::{build, lookup, nodes, walk, Bitmap, Supernodes, NODE_ROW, STRIDE};
use reference::lookup::Found;
use reference::table::{Refusal, Table};

fn c_bitmap(record: &Bitmap) -> hongsamuk::Bitmap {
    let Bitmap { width, supernodes, hops } = *record;
    hongsamuk::Bitmap { width, supernodes, hops }
}

/// What a table's bitmap needs: words of scratch, supernode rows and hop rows; of a bad table any few.
pub fn needed(table: &Table) -> (u64, u64, u64) {
    if table.check().is_err() {
        return (8, 2, 3);
    }
    let nodes = nodes(table);
    let supernodes = nodes.iter().filter(|node| node.len() % STRIDE == 0).count();
    ((nodes.len() * NODE_ROW) as u64, supernodes as u64, table.value.len() as u64)
}

impl Trial<'_> {
    pub fn bitmap_room(&mut self, rows: [usize; 4], hops: usize) -> Supernodes {
        Supernodes {
            internal: self.marks(rows[0], |mark| mark as u16),
            external: self.marks(rows[1], |mark| mark as u16),
            first_child: self.marks(rows[2], |mark| mark as u32),
            first_hop: self.marks(rows[3], |mark| mark as u32),
            hop_row: self.marks(hops, |mark| mark as u16),
        }
    }

    /// Lists about as long as are needed: often one of the four is another length than the rest.
    fn lengths(&mut self, supernodes: u64) -> [usize; 4] {
        let about = supernodes.min(SMALL.supernodes as u64 - 20);
        let mut lengths = [about as usize; 4];
        if self.random.one_in(2) {
            lengths = [0; 4].map(|_| about as usize + self.random.within(0, 9) as usize);
            lengths[self.random.within(0, 3) as usize] = self.around(about, 9);
        }
        lengths
    }

    /// The table that is lent, over lists about as long as it needs.
    pub fn bitmap(&mut self, table: &Table) -> Same {
        let (words, supernodes, hops) = needed(table);
        let words = self.around(words.min(SMALL.words as u64 - 9), 9);
        let scratch = self.marks(words, |mark| mark | 1);
        let (rows, hops) = (self.lengths(supernodes), self.around(hops, 5));
        let lists = self.bitmap_room(rows, hops);
        self.bitmap_over(table, scratch, lists).map(|_| ())
    }

    /// The build over these lists, and lookups where it is accepted. Answers number and detail, which both sides have.
    pub fn bitmap_over(
        &mut self,
        table: &Table,
        mut scratch: Vec<u64>,
        mut rows: Supernodes,
    ) -> Result<Refusal, String> {
        self.lists.lend_scratch(&scratch, &mut self.random);
        self.lists.lend_bitmap(&rows, &mut self.random);
        let (outcome, record) = build(table, &mut scratch, &mut rows);
        let (number, detail) = numbers(outcome);
        let answer = self.lists.build_bitmap(table.width, table.links);
        self.tally.table(Call::BuildBitmap, table, number, detail);
        same("bitmap", answer, raw::BuiltBitmap { number, detail, record: c_bitmap(&record) })?;
        same_list("scratch after the bitmap", self.lists.scratch.held(), &scratch)?;
        same_list("internal maps", self.lists.internal.held(), &rows.internal)?;
        same_list("external maps", self.lists.external.held(), &rows.external)?;
        same_list("first children", self.lists.first_child.held(), &rows.first_child)?;
        same_list("first hops", self.lists.first_hop.held(), &rows.first_hop)?;
        same_list("hop rows", self.lists.hop_row.held(), &rows.hop_row)?;
        if number == 0 {
            self.after_bitmap(table, record, rows)?;
        }
        Ok(Refusal { number, detail })
    }

    /// Lookups over what an accepted build left, held to the elements' hops and lengths, then over the same damaged.
    fn after_bitmap(&mut self, table: &Table, mut record: Bitmap, mut rows: Supernodes) -> Same {
        let elements = std::mem::take(&mut self.answers);
        let addresses: Vec<u32> = match elements.is_empty() {
            true => self.addresses(table),
            false => elements.iter().map(|(address, _)| *address).collect(),
        };
        let answers = self.look_in_bitmap(&record, &rows, &addresses)?;
        if answers[0].number == 0 {
            self.tally.bitmap_longest += 1;
            let (hop, length) = (answers[0].hop, answers[0].length);
            same("longest match in a bitmap", (hop, length), table.answer(addresses[0]))?;
        }
        for ((address, element), answer) in elements.iter().zip(&answers) {
            same(&format!("number for {address} of both layouts"), answer.number, element.number)?;
            same(&format!("hop for {address} of both layouts"), answer.hop, element.hop)?;
            same(&format!("length for {address} of both layouts"), answer.length, element.length)?;
            self.tally.agreed += 1;
        }
        if self.random.one_in(2) {
            bitmap_harm::harm(&mut record, &mut rows, &mut self.random);
            self.lists.lend_bitmap(&rows, &mut self.random);
            let told = |text| format!("damaged {record:?} {rows:?}: {text}");
            self.look_in_bitmap(&record, &rows, &addresses).map_err(told)?;
        }
        Ok(())
    }

    /// Records and rows of any numbers.
    pub fn bitmap_noise(&mut self) -> Same {
        let (record, rows) = bitmap_harm::noise(&mut self.random);
        self.lists.lend_bitmap(&rows, &mut self.random);
        let below = 1u64 << record.width;
        let addresses: Vec<u32> = (0..self.asked).map(|_| self.random.within(0, below) as u32).collect();
        let told = |text| format!("{record:?} {rows:?}: {text}");
        self.look_in_bitmap(&record, &rows, &addresses).map_err(told)?;
        Ok(())
    }

    fn expected_in_bitmap(&mut self, record: &Bitmap, rows: &Supernodes, address: u32) -> raw::Answer {
        let found = lookup(record, rows, address);
        match found {
            Ok(found) => {
                self.tally.bitmap_no_routes += matches!(found, Found::NoRoute { .. }) as u64;
                self.tally.bitmap_discards += matches!(found, Found::Discard { .. }) as u64;
            }
            Err(refusal) if refusal.number == 9 => {
                self.tally.bitmap_damage(walk(record, rows, address).expect_err("refused by 9"));
            }
            Err(_) => (),
        }
        c_answer(found)
    }

    /// The addresses over the rows that are lent. Returns the archive's answers.
    fn look_in_bitmap(
        &mut self,
        record: &Bitmap,
        rows: &Supernodes,
        addresses: &[u32],
    ) -> Result<Vec<raw::Answer>, String> {
        let mut answers = vec![];
        for address in addresses {
            let expected = self.expected_in_bitmap(record, rows, *address);
            self.tally.count(Call::LookupBitmap, expected.number);
            let answer = self.lists.lookup_bitmap(c_bitmap(record), *address);
            same(&format!("lookup of {address} in a bitmap"), answer, expected)?;
            answers.push(answer);
        }
        Ok(answers)
    }
}
