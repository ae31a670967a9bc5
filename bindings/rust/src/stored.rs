//! A table to bytes and back, as C holds it.

use crate::{Calendar, Cover, Day, Maturity, Product, Table};

/// The bytes of a stored table.
pub const TABLE: usize = 1624;

// Bytes of which the next are taken.
struct Stored<'a>(&'a [u8]);

impl Stored<'_> {
    fn bytes<const N: usize>(&mut self) -> [u8; N] {
        let (taken, rest) = self.0.split_at(N);
        self.0 = rest;
        let mut bytes = [0; N];
        bytes.copy_from_slice(taken);
        bytes
    }

    fn short(&mut self) -> u16 {
        u16::from_le_bytes(self.bytes())
    }

    fn product(&mut self) -> Product {
        let (id, group, market, [kind]) = (self.bytes(), self.bytes(), self.bytes(), self.bytes());
        let (currency, size, tick) = (self.bytes(), u32::from_le_bytes(self.bytes()), self.short());
        let [_, _] = self.bytes();
        Product { id, group, market, kind, currency, size, tick }
    }

    fn calendar(&mut self) -> Calendar {
        let cover = Cover { first_year: self.short(), years: self.short() };
        Calendar { cover, closed: self.bytes(), exchange: self.bytes() }
    }

    fn maturity(&mut self) -> Maturity {
        Maturity { key: self.short(), day: Day(self.short()), back: self.short(), number: self.short() }
    }
}

// The bytes of a product, with two that are not used.
fn product_bytes(p: &Product) -> Vec<u8> {
    let (size, tick) = (p.size.to_le_bytes(), p.tick.to_le_bytes());
    [&p.id[..], &p.group, &p.market, &[p.kind], &p.currency, &size, &tick, &[0; 2]].concat()
}

fn calendar_bytes(c: &Calendar) -> Vec<u8> {
    let (first_year, years) = (c.cover.first_year.to_le_bytes(), c.cover.years.to_le_bytes());
    [&first_year[..], &years, &c.closed, &c.exchange].concat()
}

impl Table {
    /// The table as C holds it, to be stored; its unused bytes are zeros.
    pub fn to_bytes(&self) -> [u8; TABLE] {
        let places = self.maturities.iter().flat_map(|m| [m.key, m.day.0, m.back, m.number]);
        let numbers = [self.date.0, self.given].into_iter().chain(places).flat_map(u16::to_le_bytes);
        let mut bytes = [0; TABLE];
        let all = product_bytes(&self.product).into_iter().chain(calendar_bytes(&self.calendar)).chain(numbers);
        bytes.iter_mut().zip(all).for_each(|(byte, one)| *byte = one);
        bytes
    }

    /// A table that was stored. Calls refuse one that is not sound (10).
    pub fn from_bytes(bytes: &[u8; TABLE]) -> Table {
        let mut stored = Stored(bytes);
        let (product, calendar, date, given) =
            (stored.product(), stored.calendar(), Day(stored.short()), stored.short());
        let maturities = std::array::from_fn(|_| stored.maturity());
        Table { product, calendar, date, given, maturities }
    }
}
