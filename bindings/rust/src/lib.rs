//! Contract terms of stock futures and stock options: the proved calls, for Rust.
//!
//! The key of a maturity is its month, a number from 0, January 2000, or the day of a weekly
//! option's Friday. A call answers its value or a [`Refusal`]; a refused call leaves the table,
//! queue or load as it was. Tables and queues may be made and changed by hand: every call
//! refuses one that is not sound (10).

mod calendars;
mod calls;
mod delivery;
mod layout;
mod refusals;
mod stored;
mod texts;

pub use delivery::{BadLine, Delivered, Differences, Notices};
use refusals::judged;
pub use refusals::Refusal;
use std::fmt;
pub use stored::TABLE;
pub use texts::{decimal_of, decimal_text, Month};

/// The most bytes of a master file.
pub const FILE_AT_MOST: usize = 65536;

/// The bytes of a block of it.
pub const BLOCK: usize = 512;

/// The bytes of a record of it.
pub const RECORD: usize = 32;

/// The bytes of a year in a calendar's map.
pub const YEAR_MAP: usize = 46;

/// The kind of a weekly option, whose keys are days.
pub const WEEKLY: u8 = 5;

// ---- Days ----

/// A day: 0 is 1 January 2000. Displayed as its date, one after 2099 as 0000-00-00.
#[derive(Clone, Copy, Debug, PartialEq, Eq, PartialOrd, Ord, Hash)]
#[repr(transparent)]
pub struct Day(pub u16);

impl Day {
    /// The day of a date.
    pub fn new(year: u16, month: u16, day: u16) -> Result<Day, Refusal> {
        let r = unsafe { calls::scullpouch_day(year, month, day) };
        judged(r.refusal, Day(r.day))
    }

    /// Year, month and day of the month.
    pub fn date(self) -> Result<(u16, u16, u16), Refusal> {
        let r = unsafe { calls::scullpouch_date(self.0) };
        judged(r.refusal, (r.year, r.month, r.day))
    }
}

impl fmt::Display for Day {
    fn fmt(&self, f: &mut fmt::Formatter<'_>) -> fmt::Result {
        let (year, month, day) = self.date().unwrap_or_default();
        write!(f, "{year:04}-{month:02}-{day:02}")
    }
}

// ---- Values ----

/// A product. `kind`: 0 a future, 1, 2, 3 an option of 12, 24, 60 months, 4 a future of 2005,
/// 5 a weekly option. `size` in 1/10,000 of a share, `tick` in 1/10,000 of the currency.
#[derive(Clone, Copy, Debug, PartialEq, Eq)]
#[repr(C)]
pub struct Product {
    pub id: [u8; 4],
    pub group: [u8; 4],
    pub market: [u8; 4],
    pub kind: u8,
    pub currency: [u8; 3],
    pub size: u32,
    pub tick: u16,
}

#[derive(Clone, Copy, Debug, PartialEq, Eq)]
#[repr(C)]
pub struct Cover {
    pub first_year: u16,
    pub years: u16,
}

/// The closed days of a cover, and those of them on which payments and deliveries run. Year k
/// has the 46 bytes from 46 · k on; its first day is the highest bit of the first of them.
#[derive(Clone, Debug, PartialEq, Eq)]
#[repr(C)]
pub struct Calendar {
    pub cover: Cover,
    pub closed: [u8; 736],
    pub exchange: [u8; 736],
}

/// A maturity: its last trading day, by how many days that was moved back, its listing number.
#[derive(Clone, Copy, Debug, PartialEq, Eq)]
#[repr(C)]
pub struct Maturity {
    pub key: u16,
    pub day: Day,
    pub back: u16,
    pub number: u16,
}

/// A table of listed maturities. They stand first, by rising key; places that are not used are
/// all zeros. `given`: how many listing numbers were given since the opening.
#[derive(Clone, Debug, PartialEq, Eq)]
#[repr(C)]
pub struct Table {
    pub product: Product,
    pub calendar: Calendar,
    pub date: Day,
    pub given: u16,
    pub maturities: [Maturity; 15],
}

/// How many maturities entered and left.
#[derive(Clone, Copy, Debug, PartialEq, Eq)]
pub struct Moved {
    pub entered: u16,
    pub left: u16,
}

/// The cash of a future, in 1/10,000 of the currency, with a rest of 0 to 9,999 in
/// 1/100,000,000. `negative`, where the buyer pays the seller, covers both. Displayed in the currency.
#[derive(Clone, Copy, Debug, PartialEq, Eq)]
#[repr(C)]
pub struct Amount {
    pub negative: bool,
    pub amount: u64,
    pub rest: u16,
}

/// What is said of a list of keys and last trading days.
#[derive(Clone, Copy, Debug, PartialEq, Eq)]
#[must_use]
pub enum Verdict {
    /// It is the table's listing.
    Same,
    /// It is not, and this is the smallest key that differs.
    Differs(u16),
}

/// The counts of an accepted master file.
#[derive(Clone, Copy, Debug, PartialEq, Eq)]
#[repr(C)]
pub struct Counts {
    pub years: u16,
    pub records: u16,
}

// ---- Files ----

/// Judges a master file.
pub fn load(file: &[u8]) -> Result<Counts, Refusal> {
    let r = unsafe { calls::scullpouch_load(file.as_ptr(), file.len()) };
    judged(r.refusal, r.counts)
}

/// The product at a place of a master file: place p is record p % 15 of block p / 15, and a place that
/// holds no record gets 9. [`Master::products`] has all of them.
pub fn product_at(file: &[u8], place: usize) -> Result<Product, Refusal> {
    let r = unsafe { calls::scullpouch_product_at(file.as_ptr(), file.len(), place) };
    judged(r.refusal, r.product)
}

impl Product {
    /// Its bytes in a master file, whatever its fields are; `Calendar::write` judges them.
    pub fn record(&self) -> [u8; RECORD] {
        unsafe { calls::scullpouch_record(*self) }.bytes
    }
}

impl Calendar {
    /// A made-up calendar for load tests.
    pub fn make(seed: u32, cover: Cover) -> Result<Calendar, Refusal> {
        let r = unsafe { calls::scullpouch_make(seed, cover) };
        judged(r.refusal, r.calendar)
    }

    /// Whether a map has days marked after the cover's last year, which are in no file that
    /// `write` makes.
    pub fn marked_after_cover(&self) -> bool {
        let after = YEAR_MAP * usize::from(self.cover.years);
        self.closed.iter().skip(after).chain(self.exchange.iter().skip(after)).any(|byte| *byte != 0)
    }

    /// Writes the master file of this calendar and of records, 32 bytes each, and answers its
    /// length. What stands in the buffer after the file stays; refused, everything does. Days that
    /// are marked after the cover's last year are not in the file (`marked_after_cover`).
    pub fn write(&self, records: &[u8], buffer: &mut [u8]) -> Result<usize, Refusal> {
        let (calendar, room) = (self.clone(), buffer.len());
        let r =
            unsafe { calls::scullpouch_write(calendar, records.as_ptr(), records.len(), buffer.as_mut_ptr(), room) };
        judged(r.refusal, r.length)
    }
}

/// A load of which one block at a time is in memory.
#[derive(Clone, Debug, PartialEq, Eq)]
#[repr(C)]
pub struct Intake {
    announced: u16,
    taken: u16,
    lowest: u16,
    first_year: u16,
    years: u16,
    idle: u16,
    records: u16,
    last_id: [u8; 4],
}

impl Intake {
    /// Begins the load of a file of so many blocks.
    pub fn announce(blocks: u16) -> Result<Intake, Refusal> {
        let r = unsafe { calls::scullpouch_announce(blocks) };
        judged(r.refusal, r.state)
    }

    /// Takes the next 512 bytes.
    pub fn take(&mut self, block: &[u8]) -> Result<(), Refusal> {
        let r = unsafe { calls::scullpouch_take(self.clone(), block.as_ptr(), block.len()) };
        *self = judged(r.refusal, r.state)?;
        Ok(())
    }

    /// What `load` says of the whole file.
    pub fn finish(&self) -> Result<Counts, Refusal> {
        let r = unsafe { calls::scullpouch_finish(self.clone()) };
        judged(r.refusal, r.counts)
    }
}

// ---- Tables ----

// An id of a text; one that no file has where the text has more than 4 bytes.
fn id_of(text: &str) -> calls::Id {
    let mut bytes = [b' '; 4];
    if text.len() <= 4 {
        bytes[..text.len()].copy_from_slice(text.as_bytes());
    }
    calls::Id { bytes }
}

// The table and the counts of an accepted open.
fn opened(r: calls::Outcome) -> Result<(Table, Moved), Refusal> {
    judged(r.refusal, (r.table, Moved { entered: r.entered, left: r.left }))
}

/// A master file that was judged once, for many opens. The file is lent as long as this is kept,
/// so it stays the one that was judged.
#[derive(Clone, Debug)]
pub struct Master<'a> {
    file: &'a [u8],
    judged: calls::FileCalendar,
}

impl<'a> Master<'a> {
    /// Judges a master file.
    pub fn judge(file: &'a [u8]) -> Result<Master<'a>, Refusal> {
        let r = unsafe { calls::scullpouch_judge_file(file.as_ptr(), file.len()) };
        judged(r.refusal, Master { file, judged: r })
    }

    /// The file's calendar.
    pub fn calendar(&self) -> &Calendar {
        &self.judged.calendar
    }

    /// The file.
    pub fn file(&self) -> &'a [u8] {
        self.file
    }

    /// The products of the file, in its order.
    pub fn products(&self) -> Vec<Product> {
        (0..15 * (self.file.len() / BLOCK)).filter_map(|place| product_at(self.file, place).ok()).collect()
    }

    /// The table of a product of the file on a date: what `Table::open` answers.
    pub fn open(&self, id: &str, date: Day) -> Result<(Table, Moved), Refusal> {
        let (file, said) = (self.file, self.judged.clone());
        opened(unsafe { calls::scullpouch_open_in(said, file.as_ptr(), file.len(), id_of(id), date.0) })
    }
}

impl Table {
    /// The table of a product of a master file on a date. [`Master`] judges the file once for many.
    pub fn open(file: &[u8], id: &str, date: Day) -> Result<(Table, Moved), Refusal> {
        opened(unsafe { calls::scullpouch_open(file.as_ptr(), file.len(), id_of(id), date.0) })
    }

    // The table is replaced where the call is accepted.
    fn moved(&mut self, r: calls::Outcome) -> Result<Moved, Refusal> {
        *self = judged(r.refusal, r.table)?;
        Ok(Moved { entered: r.entered, left: r.left })
    }

    /// Sets the date.
    pub fn roll(&mut self, date: Day) -> Result<Moved, Refusal> {
        let r = unsafe { calls::scullpouch_roll(self.clone(), date.0) };
        self.moved(r)
    }

    /// Closes a day.
    pub fn close(&mut self, day: Day) -> Result<Moved, Refusal> {
        let r = unsafe { calls::scullpouch_close(self.clone(), day.0) };
        self.moved(r)
    }

    /// Opens a closed day again.
    pub fn reopen(&mut self, day: Day) -> Result<Moved, Refusal> {
        let r = unsafe { calls::scullpouch_reopen(self.clone(), day.0) };
        self.moved(r)
    }

    /// A capital measure on a future, p for q: from the settlement price before it the one after it.
    pub fn measure(&mut self, p: u16, q: u16, price: u32) -> Result<u32, Refusal> {
        let r = unsafe { calls::scullpouch_measure(self.clone(), p, q, price) };
        *self = judged(r.refusal, r.table)?;
        Ok(r.price)
    }

    /// The listed maturities, by rising key.
    pub fn listed(&self) -> &[Maturity] {
        let used = self.maturities.iter().take_while(|m| m.number != 0).count();
        &self.maturities[..used]
    }

    /// The last trading day of a listed maturity, and by how many days it was moved back.
    pub fn last_trading_day(&self, key: u16) -> Result<(Day, u16), Refusal> {
        let r = unsafe { calls::scullpouch_last_trading_day(self.clone(), key) };
        judged(r.refusal, (Day(r.day), r.back))
    }

    /// The due day of a day of the cover.
    pub fn due(&self, day: Day) -> Result<Day, Refusal> {
        let r = unsafe { calls::scullpouch_due(self.clone(), day.0) };
        judged(r.refusal, Day(r.day))
    }

    /// Whether a price, in 1/10,000 of the currency, passes.
    pub fn tick(&self, price: u32) -> Result<(), Refusal> {
        judged(unsafe { calls::scullpouch_tick(self.clone(), price) }, ())
    }

    /// The cash of a future.
    pub fn cash(&self, contracts: u32, agreed: u32, final_price: u32) -> Result<Amount, Refusal> {
        let r = unsafe { calls::scullpouch_cash(self.clone(), contracts, agreed, final_price) };
        judged(r.refusal, r.cash)
    }

    /// Whether a list of keys and last trading days, in turn, is the table's listing.
    pub fn judge(&self, list: &[u16]) -> Result<Verdict, Refusal> {
        let r = unsafe { calls::scullpouch_judge(self.clone(), list.as_ptr(), list.len()) };
        judged(r.refusal, if r.same { Verdict::Same } else { Verdict::Differs(r.key) })
    }
}

// ---- The morning round ----

/// A queue of tables, by their numbers 0 to 199.
#[derive(Clone, Debug, PartialEq, Eq)]
#[repr(C)]
pub struct Queue {
    pub tables: [u16; 200],
    pub count: u16,
}

impl Default for Queue {
    fn default() -> Self {
        Queue::new()
    }
}

impl Queue {
    /// A queue with no table.
    pub fn new() -> Queue {
        unsafe { calls::scullpouch_queue() }
    }

    /// The numbers of its tables, the first first.
    pub fn waiting(&self) -> &[u16] {
        &self.tables[..self.tables.len().min(self.count as usize)]
    }

    /// Takes the first b tables, or all if fewer, which then stand at the end: their numbers, as a queue.
    pub fn handle(&mut self, b: u16) -> Result<Queue, Refusal> {
        let r = unsafe { calls::scullpouch_handle(self.clone(), b) };
        *self = judged(r.refusal, r.queue)?;
        Ok(r.taken)
    }

    /// A table joins at the end.
    pub fn join(&mut self, table: u16) -> Result<(), Refusal> {
        let r = unsafe { calls::scullpouch_join(self.clone(), table) };
        *self = judged(r.refusal, r.queue)?;
        Ok(())
    }

    /// A table leaves, wherever it stands.
    pub fn leave(&mut self, table: u16) -> Result<(), Refusal> {
        let r = unsafe { calls::scullpouch_leave(self.clone(), table) };
        *self = judged(r.refusal, r.queue)?;
        Ok(())
    }
}

/// The number of the interface, which changes when a struct, a function or the meaning of an answer does.
pub fn interface() -> u32 {
    unsafe { calls::scullpouch_interface() }
}
