//! A calendar by its days. A few lines over the calls, compared and not proved.

use crate::refusals::judged;
use crate::{Calendar, Day, Product, Refusal, YEAR_MAP};

// Monday to Friday. Day 0 is a Saturday.
fn is_weekday(day: Day) -> bool {
    (u32::from(day.0) + 5) % 7 < 5
}

// What `write` refuses of a calendar that has no room for its file, after all else was asked.
const NO_ROOM: u8 = 25;

impl Calendar {
    /// Whether a day is a trading day: a Monday to Friday in the cover that is not closed.
    pub fn trades(&self, day: Day) -> bool {
        is_weekday(day) && self.place(day).is_some_and(|place| !self.is_closed(place))
    }

    /// Closes a trading day. It asks what `write` asks of a calendar (3 to 6), then 11, 14, 15; refused, the calendar is
    /// as it was.
    pub fn close(&mut self, day: Day) -> Result<(), Refusal> {
        let place = self.asked_place(day)?;
        judged(if self.trades(day) { 0 } else { 14 }, ())?;
        self.closed[place / 8] ^= 128 >> (place % 8);
        if self.judged().is_err() {
            self.closed[place / 8] ^= 128 >> (place % 8);
            return judged(15, ());
        }
        Ok(())
    }

    /// Opens a closed day again, in both maps. It asks what `write` asks of a calendar (3 to 6), then 11, 26; refused, the
    /// calendar is as it was.
    pub fn reopen(&mut self, day: Day) -> Result<(), Refusal> {
        let place = self.asked_place(day)?;
        judged(if is_weekday(day) && self.is_closed(place) { 0 } else { 26 }, ())?;
        self.closed[place / 8] &= !(128 >> (place % 8));
        self.exchange[place / 8] &= !(128 >> (place % 8));
        Ok(())
    }

    // The place of a day's bit in both maps, where the day is in the cover.
    fn place(&self, day: Day) -> Option<usize> {
        let (year, ..) = day.date().ok()?;
        let after = year.checked_sub(self.cover.first_year).filter(|years| *years < self.cover.years)?;
        let first = Day::new(year, 1, 1).ok()?;
        Some(8 * YEAR_MAP * usize::from(after) + usize::from(day.0 - first.0))
    }

    // Whether the day of a place is closed; none is after the maps' end.
    fn is_closed(&self, place: usize) -> bool {
        self.closed.get(place / 8).is_some_and(|byte| byte & (128 >> (place % 8)) != 0)
    }

    // The place of a day in the cover of a calendar that `write` takes.
    fn asked_place(&self, day: Day) -> Result<usize, Refusal> {
        self.judged()?;
        match self.place(day) {
            Some(place) => Ok(place),
            None => judged(11, 0),
        }
    }

    // What `write` would refuse of the calendar, 3 to 6: it is handed one record that is right, and no room.
    fn judged(&self) -> Result<(), Refusal> {
        let (id, group, market) = (*b"A   ", *b"AA00", *b"AAAA");
        let record = Product { id, group, market, kind: 0, currency: *b"EUR", size: 10_000, tick: 1 }.record();
        match self.write(&record, &mut []) {
            Err(refusal) if refusal.number() != NO_ROOM => Err(refusal),
            _ => Ok(()),
        }
    }
}
