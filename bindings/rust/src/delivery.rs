//! A delivery: the tables of a file's products after a text of notices, their rows as text, and
//! what differs from rows that came from elsewhere.

use crate::calls;
use crate::refusals::judged;
use crate::{Day, Master, Product, Refusal, Table};
use std::fmt;

const CALLS: usize = 32770;
const NOTICE_IDS: usize = 26216;
const NOTICES: usize = 6554;
const ROWS: usize = 65536;
const TABLE_TEXT: usize = 1024;
const KEYS: u32 = 65536;

/// The number, from 1, of the first line of a text of notices that is none.
#[derive(Clone, Copy, Debug, PartialEq, Eq)]
pub struct BadLine(pub u32);

impl fmt::Display for BadLine {
    fn fmt(&self, f: &mut fmt::Formatter<'_>) -> fmt::Result {
        write!(f, "notices.txt:{}: BAD", self.0)
    }
}

impl std::error::Error for BadLine {}

/// A text of notices that was read once, for many tables.
#[derive(Clone, Debug)]
pub struct Notices {
    said: calls::SaidNotices,
    calls: Vec<u32>,
    ids: Vec<u8>,
}

/// The table of a product after the notices, and the calls that were refused: the number of the
/// line, and of the refusal.
#[derive(Clone, Debug, PartialEq, Eq)]
pub struct Delivered {
    pub table: Table,
    pub refused: Vec<(u32, u8)>,
}

/// What differs from rows that came from elsewhere.
#[derive(Clone, Debug, PartialEq, Eq)]
#[must_use]
pub struct Differences {
    /// The heading and the lines under it, as `reconcile` prints them; empty where there was a row too many.
    pub text: String,
    /// How many lines stand under the heading.
    pub differ: usize,
    /// How many good rows there were.
    pub rows: u32,
    /// The numbers of the bad lines.
    pub bad: Vec<u32>,
    /// Whether there was a good row too many, after 65,536.
    pub over: bool,
}

// The text of a line.
fn text_of(line: &calls::Line) -> &str {
    std::str::from_utf8(&line.bytes[..line.length]).unwrap_or_default()
}

fn id_of(product: &Product) -> calls::Id {
    calls::Id { bytes: product.id }
}

// Good rows in six lists, and a seventh for the places of a product's.
struct Rows {
    state: calls::Receipt,
    ids: Vec<u8>,
    keys: Vec<u16>,
    days: Vec<u16>,
    fulls: Vec<u8>,
    numbers: Vec<u16>,
    backs: Vec<u16>,
    places: Vec<u16>,
}

impl Rows {
    fn new() -> Rows {
        let numbers = || vec![0; ROWS];
        Rows {
            state: calls::Receipt { next: 0, rows: 0, lines: 0, bad: 0, begun: false, over: false },
            ids: vec![0; 4 * ROWS],
            keys: numbers(),
            days: numbers(),
            fulls: vec![0; ROWS],
            numbers: numbers(),
            backs: numbers(),
            places: numbers(),
        }
    }

    // Takes the next line of a text.
    fn receive(&mut self, file: &[u8], text: &[u8]) {
        self.state = unsafe {
            calls::scullpouch_receive(
                self.state,
                file.as_ptr(),
                file.len(),
                text.as_ptr(),
                text.len(),
                self.ids.as_mut_ptr(),
                self.ids.len(),
                self.keys.as_mut_ptr(),
                self.keys.len(),
                self.days.as_mut_ptr(),
                self.days.len(),
                self.fulls.as_mut_ptr(),
                self.fulls.len(),
                self.numbers.as_mut_ptr(),
                self.numbers.len(),
                self.backs.as_mut_ptr(),
                self.backs.len(),
            )
        };
    }

    // Takes a whole text: the numbers of its bad lines.
    fn receive_all(&mut self, file: &[u8], text: &[u8]) -> Vec<u32> {
        let mut bad = Vec::new();
        while self.state.next < text.len() && !self.state.over {
            self.receive(file, text);
            bad.extend(Some(self.state.bad).filter(|line| *line != 0));
        }
        bad
    }

    // The lines of a product's differences, from a key on, in a buffer.
    fn found(
        &mut self,
        product: &Product,
        delivered: &calls::FlatDelivered,
        from: u32,
        buffer: &mut [u8],
    ) -> calls::Found {
        unsafe {
            calls::scullpouch_differences(
                *product,
                delivered.clone(),
                self.state.rows,
                self.ids.as_ptr(),
                self.ids.len(),
                self.keys.as_ptr(),
                self.keys.len(),
                self.days.as_ptr(),
                self.days.len(),
                self.fulls.as_ptr(),
                self.fulls.len(),
                self.numbers.as_ptr(),
                self.numbers.len(),
                self.backs.as_ptr(),
                self.backs.len(),
                self.places.as_mut_ptr(),
                self.places.len(),
                from,
                buffer.as_mut_ptr(),
                buffer.len(),
            )
        }
    }

    // All lines of a product's differences, after those that stand in a text already: how many.
    fn differences(&mut self, product: &Product, delivered: &calls::FlatDelivered, text: &mut String) -> usize {
        let mut buffer = [0; TABLE_TEXT];
        let (mut from, mut lines) = (0, 0);
        while from < KEYS {
            let r = self.found(product, delivered, from, &mut buffer);
            text.push_str(std::str::from_utf8(&buffer[..r.length]).unwrap_or_default());
            (from, lines) = (r.next, lines + r.lines as usize);
        }
        lines
    }

    // The lines of the ids that are not in the file.
    fn unknown(&self, file: &[u8], text: &mut String) -> usize {
        let mut lines = 0;
        for i in 0..self.state.rows {
            let line = unsafe {
                calls::scullpouch_unknown_product(file.as_ptr(), file.len(), self.ids.as_ptr(), self.ids.len(), i)
            };
            text.push_str(text_of(&line));
            lines += usize::from(line.length != 0);
        }
        lines
    }
}

impl Notices {
    /// Reads a text of notices.
    pub fn read(text: &[u8]) -> Result<Notices, BadLine> {
        let (mut list, mut ids) = (vec![0; CALLS], vec![0; NOTICE_IDS]);
        let said = unsafe {
            calls::scullpouch_read_notices(
                text.as_ptr(),
                text.len(),
                list.as_mut_ptr(),
                list.len(),
                ids.as_mut_ptr(),
                ids.len(),
            )
        };
        if said.bad != 0 {
            return Err(BadLine(said.bad));
        }
        Ok(Notices { said, calls: list, ids })
    }

    /// The day of the opening.
    pub fn date(&self) -> Day {
        Day(self.said.date)
    }

    /// The number of the line of the opening.
    pub fn opened(&self) -> u32 {
        self.said.opened
    }

    /// How many notices there are after the opening.
    pub fn count(&self) -> u32 {
        self.said.count
    }

    // The table of a product, with the number of each notice's refusal.
    fn deliver(&self, master: &Master, id: calls::Id, refusals: &mut [u8]) -> calls::FlatDelivered {
        let (file, said) = (master.file, master.judged.clone());
        unsafe {
            calls::scullpouch_deliver(
                said,
                file.as_ptr(),
                file.len(),
                self.said,
                self.calls.as_ptr(),
                self.calls.len(),
                self.ids.as_ptr(),
                self.ids.len(),
                id,
                refusals.as_mut_ptr(),
                refusals.len(),
            )
        }
    }

    /// The table of a product of the file after the notices, and what was refused. A product whose
    /// opening is refused has none.
    pub fn table(&self, master: &Master, id: &str) -> Result<Delivered, Refusal> {
        let mut refusals = [0; NOTICES];
        let r = self.deliver(master, crate::id_of(id), &mut refusals);
        let numbers = refusals.iter().take(self.said.count as usize).enumerate();
        let refused = numbers.filter(|(_, number)| **number != 0).map(|(i, number)| (self.calls[5 * i], *number));
        judged(r.refusal, Delivered { table: r.table, refused: refused.collect() })
    }

    /// The rows of all products of the file, under their heading, as `deliver` prints them.
    pub fn rows(&self, master: &Master) -> String {
        let heading = unsafe { calls::scullpouch_rows_heading() };
        let mut text = String::from(text_of(&heading));
        let mut refusals = [0; NOTICES];
        for product in master.products() {
            let r = self.deliver(master, id_of(&product), &mut refusals);
            text.push_str(&r.table.rows().unwrap_or_default());
        }
        text
    }

    /// What was refused, a line for each call, as `deliver` tells it.
    pub fn refused(&self, master: &Master) -> String {
        let (mut text, mut refusals) = (String::new(), [0; NOTICES]);
        for product in master.products() {
            let r = self.deliver(master, id_of(&product), &mut refusals);
            for i in 0..=self.said.count {
                text.push_str(text_of(&self.refused_call(&product, r.refusal, &refusals, i)));
            }
        }
        for i in 0..self.said.count {
            text.push_str(text_of(&self.unknown_measure(master, i)));
        }
        text
    }

    fn refused_call(&self, product: &Product, refusal: u8, refusals: &[u8], i: u32) -> calls::Line {
        unsafe {
            calls::scullpouch_refused_call(
                id_of(product),
                self.said,
                refusal,
                self.calls.as_ptr(),
                self.calls.len(),
                refusals.as_ptr(),
                refusals.len(),
                i,
            )
        }
    }

    fn unknown_measure(&self, master: &Master, i: u32) -> calls::Line {
        unsafe {
            calls::scullpouch_unknown_measure(
                master.file.as_ptr(),
                master.file.len(),
                self.calls.as_ptr(),
                self.calls.len(),
                self.ids.as_ptr(),
                self.ids.len(),
                i,
            )
        }
    }

    /// What differs between the tables after the notices and rows that came from elsewhere, in the form
    /// that `reconcile` reads.
    pub fn differences(&self, master: &Master, text: &[u8]) -> Differences {
        let mut rows = Rows::new();
        let bad = rows.receive_all(master.file, text);
        let (mut lines, mut differ, mut refusals) = (String::new(), 0, [0; NOTICES]);
        if !rows.state.over {
            let heading = unsafe { calls::scullpouch_differences_heading() };
            lines.push_str(text_of(&heading));
            for product in master.products() {
                let delivered = self.deliver(master, id_of(&product), &mut refusals);
                differ += rows.differences(&product, &delivered, &mut lines);
            }
            differ += rows.unknown(master.file, &mut lines);
        }
        Differences { text: lines, differ, rows: rows.state.rows, bad, over: rows.state.over }
    }
}

impl Table {
    /// Its rows, as `deliver` prints them.
    pub fn rows(&self) -> Result<String, Refusal> {
        let mut buffer = [0; TABLE_TEXT];
        let r = unsafe { calls::scullpouch_rows(self.clone(), buffer.as_mut_ptr(), buffer.len()) };
        judged(r.refusal, String::from_utf8_lossy(&buffer[..r.length]).into_owned())
    }
}
