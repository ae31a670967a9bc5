//! The program `terms` in Rust over the crate: master.bin and commands in, answers out.

use scullpouch::{Day, Moved, Table, FILE_AT_MOST, WEEKLY};
use std::io::{self, BufRead, Read, Write};

fn number(s: &[u8]) -> Option<u16> {
    s.iter().try_fold(0, |n, c| c.is_ascii_digit().then(|| 10 * n + u16::from(c - b'0')))
}

fn date(s: &[u8]) -> Option<Day> {
    if s.len() != 10 || s[4] != b'-' || s[7] != b'-' {
        return None;
    }
    Day::new(number(&s[..4])?, number(&s[5..7])?, number(&s[8..])?).ok()
}

enum Command<'a> {
    Open(&'a str, Day),
    Roll(Day),
    Close(Day),
}

// An id and a date.
fn opening(s: &[u8]) -> Option<Command<'_>> {
    let space = s.iter().position(|c| *c == b' ')?;
    let id = std::str::from_utf8(&s[..space]).ok()?;
    let right = (1..=4).contains(&id.len()) && id.bytes().all(|c| c.is_ascii_uppercase() || c.is_ascii_digit());
    Some(Command::Open(id, date(&s[space + 1..])?)).filter(|_| right)
}

fn parse(line: &[u8]) -> Option<Command<'_>> {
    let rest = line.get(2..).filter(|_| line[1] == b' ')?;
    match line[0] {
        b'O' => opening(rest),
        b'R' => Some(Command::Roll(date(rest)?)),
        b'C' => Some(Command::Close(date(rest)?)),
        _ => None,
    }
}

// The month of a maturity, or its Friday.
fn key_text(kind: u8, key: u16) -> String {
    if kind == WEEKLY {
        return Day(key).to_string();
    }
    format!("{:04}-{:02}", 2000 + key / 12, key % 12 + 1)
}

fn print(out: &mut impl Write, letter: char, t: &Table, moved: Moved) -> io::Result<()> {
    writeln!(out, "{letter} {} {} {} {}", t.date, moved.entered, moved.left, t.given)?;
    for m in t.listed() {
        writeln!(out, "{} {} {} {}", m.number, key_text(t.product.kind, m.key), m.day, m.back)?;
    }
    Ok(())
}

fn answer(out: &mut impl Write, file: &[u8], held: &mut Option<Table>, line: &[u8]) -> io::Result<()> {
    let (letter, called) = match (parse(line), &mut *held) {
        (Some(Command::Open(id, date)), _) => (
            'O',
            Table::open(file, id, date).map(|(t, moved)| {
                *held = Some(t);
                moved
            }),
        ),
        (Some(Command::Roll(date)), Some(t)) => ('R', t.roll(date)),
        (Some(Command::Close(day)), Some(t)) => ('C', t.close(day)),
        _ => return writeln!(out, "BAD"),
    };
    match (called, held) {
        (Ok(moved), Some(t)) => print(out, letter, t, moved),
        (Err(refusal), _) => writeln!(out, "NO {}", refusal.number()),
        (Ok(_), None) => Ok(()),
    }
}

fn main() -> io::Result<()> {
    let mut file = Vec::new();
    let most = FILE_AT_MOST as u64 + 1;
    if std::fs::File::open("master.bin").and_then(|f| f.take(most).read_to_end(&mut file)).is_err() {
        file.clear();
    }
    let mut out = io::BufWriter::new(io::stdout().lock());
    let mut held = None;
    for line in io::stdin().lock().split(b'\n') {
        let Ok(line) = line else { break };
        answer(&mut out, &file, &mut held, &line)?;
    }
    out.flush()
}
