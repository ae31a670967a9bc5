//! A line of input for each call of the crate, a line of output for each answer (bindings/README.md).

use scullpouch::{
    decimal_of, decimal_text, load, product_at, Amount, Calendar, Counts, Cover, Day, Intake, Master, Maturity, Month,
    Moved, Notices, Product, Queue, Refusal, Table, Verdict,
};
use std::fmt::Display;
use std::io::{self, BufRead, Write};
use std::time::Instant;

const LOOPS: usize = 50;
const SUM_MODULUS: u64 = 65521;

// What the lines before have left.
struct Held {
    file: Vec<u8>,
    master: Option<Master<'static>>,
    notices: Option<Notices>,
    table: Table,
    kept: Table,
    calendar: Calendar,
    state: Option<Intake>,
    queue: Queue,
}

// The words of a line after the command.
struct Words<'a>(Vec<&'a str>);

impl Words<'_> {
    fn text(&self) -> &str {
        self.0[0]
    }

    fn number(&self, at: usize) -> u64 {
        self.0[at].parse().unwrap()
    }

    fn short(&self, at: usize) -> u16 {
        u16::try_from(self.number(at)).unwrap()
    }

    fn long(&self, at: usize) -> u32 {
        u32::try_from(self.number(at)).unwrap()
    }

    fn day(&self, at: usize) -> Day {
        Day(self.short(at))
    }

    fn shorts(&self) -> Vec<u16> {
        (0..self.0.len()).map(|at| self.short(at)).collect()
    }
}

// ---- Text ----

fn line(words: &[&dyn Display]) -> String {
    words.iter().map(|word| word.to_string()).collect::<Vec<_>>().join(" ")
}

// The number of a refusal, or 0.
fn refusal_of<T>(answer: &Result<T, Refusal>) -> u8 {
    answer.as_ref().map_or_else(|refusal| refusal.number(), |_| 0)
}

fn hex(bytes: &[u8]) -> String {
    bytes.iter().map(|byte| format!("{byte:02x}")).collect()
}

// The sum of (i + 1) * byte i, modulo 65,521.
fn sum_of(bytes: &[u8]) -> u64 {
    (1..).zip(bytes).fold(0, |sum, (weight, byte)| (sum + weight * u64::from(*byte)) % SUM_MODULUS)
}

fn calendar_text(c: &Calendar) -> String {
    line(&[&c.cover.first_year, &c.cover.years, &sum_of(&c.closed), &sum_of(&c.exchange)])
}

fn table_text(t: &Table) -> String {
    let p = &t.product;
    let codes = hex(&p.id) + &hex(&p.group) + &hex(&p.market) + &hex(&p.currency);
    let places: Vec<String> = t.maturities.iter().map(|m| line(&[&m.key, &m.day.0, &m.back, &m.number])).collect();
    let (calendar, places, listed) = (calendar_text(&t.calendar), places.join(" "), t.listed().len());
    line(&[&codes, &p.kind, &p.size, &p.tick, &calendar, &t.date.0, &t.given, &places, &listed])
}

// The count, the places that are used, and the sum of the others.
fn queue_text(q: &Queue) -> String {
    let used = q.waiting();
    let rest: u64 = q.tables[used.len()..].iter().map(|n| u64::from(*n)).sum();
    let numbers: String = used.iter().map(|n| format!("{n} ")).collect();
    format!("{} {numbers}{rest}", q.count)
}

fn moved_text(answer: Result<Moved, Refusal>) -> String {
    let refusal = refusal_of(&answer);
    let moved = answer.unwrap_or(Moved { entered: 0, left: 0 });
    line(&[&refusal, &moved.entered, &moved.left])
}

fn counts_text(answer: Result<Counts, Refusal>) -> String {
    let refusal = refusal_of(&answer);
    let counts = answer.unwrap_or(Counts { years: 0, records: 0 });
    line(&[&refusal, &counts.years, &counts.records])
}

fn day_text(answer: Result<Day, Refusal>) -> String {
    line(&[&refusal_of(&answer), &answer.unwrap_or(Day(0)).0])
}

// ---- Commands ----

impl Held {
    fn new() -> Held {
        let product =
            Product { id: [0; 4], group: [0; 4], market: [0; 4], kind: 0, currency: [0; 3], size: 0, tick: 0 };
        let cover = Cover { first_year: 0, years: 0 };
        let calendar = Calendar { cover, closed: [0; 736], exchange: [0; 736] };
        let unused = Maturity { key: 0, day: Day(0), back: 0, number: 0 };
        let table = Table { product, calendar: calendar.clone(), date: Day(0), given: 0, maturities: [unused; 15] };
        Held {
            file: Vec::new(),
            master: None,
            notices: None,
            kept: table.clone(),
            table,
            calendar,
            state: None,
            queue: Queue::new(),
        }
    }

    fn open(&mut self, id: &str, date: Day) -> Result<Moved, Refusal> {
        let (table, moved) = Table::open(&self.file, id, date)?;
        self.table = table;
        Ok(moved)
    }

    // The file as it is now, which stays for the rest of the run.
    fn judge_file(&mut self) -> Result<(), Refusal> {
        self.master = Some(Master::judge(self.file.clone().leak())?);
        Ok(())
    }

    fn open_in(&mut self, id: &str, date: Day) -> Result<Moved, Refusal> {
        let (table, moved) = self.master.as_ref().unwrap().open(id, date)?;
        self.table = table;
        Ok(moved)
    }

    // The products of the file: how many, and the sum of their records.
    fn products(&self) -> String {
        let answer = Master::judge(&self.file).map(|master| master.products());
        let refusal = refusal_of(&answer);
        let products = answer.unwrap_or_default();
        let records: Vec<u8> = products.iter().flat_map(Product::record).collect();
        line(&[&refusal, &products.len(), &sum_of(&records)])
    }

    // The table to bytes and back.
    fn stored(&mut self) -> String {
        let bytes = self.table.to_bytes();
        self.table = Table::from_bytes(&bytes);
        sum_of(&bytes).to_string()
    }

    // A text by its length and its sum.
    fn text_words(text: &str) -> String {
        line(&[&text.len(), &sum_of(text.as_bytes())])
    }

    fn product(&self, place: usize) -> String {
        let answer = product_at(&self.file, place);
        let refusal = refusal_of(&answer);
        let none = Product { id: [0; 4], group: [0; 4], market: [0; 4], kind: 0, currency: [0; 3], size: 0, tick: 0 };
        let p = answer.unwrap_or(none);
        let codes = hex(&p.id) + &hex(&p.group) + &hex(&p.market) + &hex(&p.currency);
        line(&[&refusal, &codes, &p.kind, &p.size, &p.tick])
    }

    fn notices(&mut self, name: &str) -> String {
        match Notices::read(&std::fs::read(name).unwrap()) {
            Err(bad) => line(&[&bad.0, &0, &0, &0]),
            Ok(read) => {
                let words = line(&[&0, &read.date().0, &read.opened(), &read.count()]);
                self.notices = Some(read);
                words
            }
        }
    }

    fn deliver(&mut self, id: &str) -> String {
        match self.notices.as_ref().unwrap().table(self.master.as_ref().unwrap(), id) {
            Err(refusal) => line(&[&refusal.number(), &0]),
            Ok(delivered) => {
                self.table = delivered.table;
                let refused: String = delivered.refused.iter().map(|(at, number)| format!(" {at} {number}")).collect();
                format!("0 {}{refused}", delivered.refused.len())
            }
        }
    }

    fn rows(&self) -> String {
        let answer = self.table.rows();
        line(&[&refusal_of(&answer), &Held::text_words(&answer.unwrap_or_default())])
    }

    fn delivery(&self) -> String {
        let (notices, master) = (self.notices.as_ref().unwrap(), self.master.as_ref().unwrap());
        assert_eq!(master.products().len(), usize::from(load(master.file()).unwrap().records));
        line(&[&Held::text_words(&notices.rows(master)), &Held::text_words(&notices.refused(master))])
    }

    fn differences(&self, name: &str) -> String {
        let text = std::fs::read(name).unwrap();
        let d = self.notices.as_ref().unwrap().differences(self.master.as_ref().unwrap(), &text);
        let bad: String = d.bad.iter().map(|at| format!(" {at}")).collect();
        format!("{} {} {} {}{bad}", d.rows, d.differ, u8::from(d.over), Held::text_words(&d.text))
    }

    fn announce(&mut self, blocks: u16) -> Result<(), Refusal> {
        self.state = Some(Intake::announce(blocks)?);
        Ok(())
    }

    fn take(&mut self, from: usize, length: usize) -> Result<(), Refusal> {
        let block = self.file[from..from + length].to_vec();
        self.state.as_mut().unwrap().take(&block)
    }

    fn make(&mut self, seed: u32, cover: Cover) -> Result<(), Refusal> {
        self.calendar = Calendar::make(seed, cover)?;
        Ok(())
    }

    // Records from a file, into a buffer of so many bytes, each of them 165 before.
    fn write(&self, name: &str, room: usize) -> String {
        let records = std::fs::read(name).unwrap();
        let mut buffer = vec![165; room];
        let answer = self.calendar.write(&records, &mut buffer);
        line(&[&refusal_of(&answer), &answer.unwrap_or(0), &sum_of(&buffer)])
    }

    fn set_product(&mut self, field: &str, place: usize, value: u64) -> bool {
        let p = &mut self.table.product;
        match field {
            "id" => p.id[place] = value as u8,
            "group" => p.group[place] = value as u8,
            "market" => p.market[place] = value as u8,
            "currency" => p.currency[place] = value as u8,
            "kind" => p.kind = value as u8,
            "size" => p.size = value as u32,
            "tick" => p.tick = value as u16,
            _ => return false,
        }
        true
    }

    // A byte of a map is xored with the value.
    fn set(&mut self, field: &str, place: usize, value: u64) {
        if self.set_product(field, place, value) {
            return;
        }
        let t = &mut self.table;
        match field {
            "first_year" => t.calendar.cover.first_year = value as u16,
            "years" => t.calendar.cover.years = value as u16,
            "closed" => t.calendar.closed[place] ^= value as u8,
            "exchange" => t.calendar.exchange[place] ^= value as u8,
            "date" => t.date = Day(value as u16),
            "given" => t.given = value as u16,
            "key" => t.maturities[place].key = value as u16,
            "last" => t.maturities[place].day = Day(value as u16),
            "back" => t.maturities[place].back = value as u16,
            "number" => t.maturities[place].number = value as u16,
            _ => panic!("{field} is no field"),
        }
    }

    // A queue of any numbers: its count, then its places from the first on.
    fn set_queue(&mut self, numbers: &[u16]) {
        self.queue = Queue { tables: [0; 200], count: numbers[0] };
        self.queue.tables[..numbers.len() - 1].copy_from_slice(&numbers[1..]);
    }

    fn handle(&mut self, b: u16) -> String {
        let answer = self.queue.handle(b);
        let refusal = refusal_of(&answer);
        line(&[&refusal, &queue_text(&answer.unwrap_or_default())])
    }

    // The microseconds of a roll to a date, the best of some loops of so many rolls.
    fn time(&mut self, count: u32, date: Day) -> String {
        let mut best = f64::MAX;
        for _ in 0..LOOPS {
            let start = Instant::now();
            for _ in 0..count {
                self.table.roll(date).unwrap();
            }
            best = best.min(start.elapsed().as_secs_f64() / f64::from(count) * 1e6);
        }
        format!("{best:.2}")
    }

    // Commands that change what is held and print nothing.
    fn change(&mut self, name: &str, w: &Words) -> bool {
        match name {
            "file" => self.file = std::fs::read(w.text()).unwrap(),
            "set" => self.set(w.text(), w.number(1) as usize, w.number(2)),
            "keep" => self.kept = self.table.clone(),
            "restore" => self.table = self.kept.clone(),
            "calendar" => self.calendar = self.table.calendar.clone(),
            "queue" => self.queue = Queue::new(),
            "numbers" => self.set_queue(&w.shorts()),
            _ => return false,
        }
        true
    }

    // Commands on a table.
    fn on_table(&mut self, name: &str, w: &Words) -> Option<String> {
        Some(match name {
            "open" => moved_text(self.open(w.text(), w.day(1))),
            "open_in" => moved_text(self.open_in(w.text(), w.day(1))),
            "roll" => moved_text(self.table.roll(w.day(0))),
            "close" => moved_text(self.table.close(w.day(0))),
            "reopen" => moved_text(self.table.reopen(w.day(0))),
            "measure" => {
                let answer = self.table.measure(w.short(0), w.short(1), w.long(2));
                line(&[&refusal_of(&answer), &answer.unwrap_or(0)])
            }
            "table" => table_text(&self.table),
            "last" => {
                let answer = self.table.last_trading_day(w.short(0));
                let (day, back) = answer.unwrap_or((Day(0), 0));
                line(&[&refusal_of(&answer), &day.0, &back])
            }
            "due" => day_text(self.table.due(w.day(0))),
            "tick" => line(&[&refusal_of(&self.table.tick(w.long(0)))]),
            "cash" => {
                let answer = self.table.cash(w.long(0), w.long(1), w.long(2));
                let (negative, amount, rest) = answer.map_or((0, 0, 0), |c| (u8::from(c.negative), c.amount, c.rest));
                line(&[&refusal_of(&answer), &negative, &amount, &rest])
            }
            "judge" => {
                let answer = self.table.judge(&w.shorts());
                let (same, key) = match answer {
                    Ok(Verdict::Same) => (1, 0),
                    Ok(Verdict::Differs(key)) => (0, key),
                    Err(_) => (0, 0),
                };
                line(&[&refusal_of(&answer), &same, &key])
            }
            "record" => hex(&self.table.product.record()),
            "stored" => self.stored(),
            "time" => self.time(w.long(0), w.day(1)),
            _ => return None,
        })
    }

    // Commands on texts.
    fn on_texts(&self, name: &str, w: &Words) -> Option<String> {
        Some(match name {
            "day_text" => w.day(0).to_string(),
            "month_text" => Month(w.short(0)).to_string(),
            "key_text" => Product { kind: w.short(0) as u8, ..self.table.product }.key_text(w.short(1)),
            "decimal" => decimal_text(w.long(0)),
            "read_decimal" => {
                let found = decimal_of(w.text());
                line(&[&u8::from(found.is_some()), &found.unwrap_or(0)])
            }
            "amount" => Amount { negative: w.number(0) != 0, amount: w.number(1), rest: w.short(2) }.to_string(),
            _ => return None,
        })
    }

    // Commands on a calendar's days.
    fn on_calendar(&mut self, name: &str, w: &Words) -> Option<String> {
        let refusal = match name {
            "trades" => return Some(u8::from(self.calendar.trades(w.day(0))).to_string()),
            "calendar_close" => refusal_of(&self.calendar.close(w.day(0))),
            "calendar_reopen" => refusal_of(&self.calendar.reopen(w.day(0))),
            _ => return None,
        };
        Some(line(&[&refusal, &calendar_text(&self.calendar)]))
    }

    // Commands on days, files and queues.
    fn on_others(&mut self, name: &str, w: &Words) -> String {
        match name {
            "interface" => scullpouch::interface().to_string(),
            "question" => Refusal::new(w.short(0) as u8).map_or("", Refusal::question).to_string(),
            "day" => day_text(Day::new(w.short(0), w.short(1), w.short(2))),
            "date" => {
                let answer = w.day(0).date();
                let (year, month, day) = answer.unwrap_or_default();
                line(&[&refusal_of(&answer), &year, &month, &day])
            }
            "load" => counts_text(load(&self.file)),
            "judge_file" => {
                let answer = self.judge_file();
                let calendar = self.master.as_ref().map(|m| calendar_text(m.calendar()));
                line(&[&refusal_of(&answer), &calendar.unwrap_or("0 0 0 0".to_string())])
            }
            "announce" => line(&[&refusal_of(&self.announce(w.short(0)))]),
            "take" => line(&[&refusal_of(&self.take(w.number(0) as usize, w.number(1) as usize))]),
            "finish" => counts_text(self.state.as_ref().unwrap().finish()),
            "make" => {
                let answer = self.make(w.long(0), Cover { first_year: w.short(1), years: w.short(2) });
                line(&[&refusal_of(&answer), &calendar_text(&self.calendar)])
            }
            "write" => self.write(w.text(), w.number(1) as usize),
            "marked" => u8::from(self.calendar.marked_after_cover()).to_string(),
            "product" => self.product(w.number(0) as usize),
            "products" => self.products(),
            "notices" => self.notices(w.text()),
            "deliver" => self.deliver(w.text()),
            "rows" => self.rows(),
            "delivery" => self.delivery(),
            "differences" => self.differences(w.text()),
            "round" => queue_text(&self.queue),
            "handle" => self.handle(w.short(0)),
            "join" => line(&[&refusal_of(&self.queue.join(w.short(0)))]),
            "leave" => line(&[&refusal_of(&self.queue.leave(w.short(0)))]),
            _ => panic!("{name} is no command"),
        }
    }
}

fn main() -> io::Result<()> {
    let mut out = io::BufWriter::new(io::stdout().lock());
    let mut held = Held::new();
    for text in io::stdin().lock().lines() {
        let text = text?;
        let mut words = text.split_whitespace();
        let name = words.next().unwrap();
        let words = Words(words.collect());
        if !held.change(name, &words) {
            let said = held.on_table(name, &words).or_else(|| held.on_calendar(name, &words));
            let said = said.or_else(|| held.on_texts(name, &words));
            let said = said.unwrap_or_else(|| held.on_others(name, &words));
            writeln!(out, "{said}")?;
        }
    }
    out.flush()
}
