//! Months, keys, decimals and amounts as texts. A few lines over the calls, compared and not proved.

use crate::{Amount, Day, Product, Refusal, WEEKLY};
use std::fmt;

/// A month: 0 is January 2000. Displayed as 2008-03. A monthly maturity's key is one: `Month(m.key)`.
#[derive(Clone, Copy, Debug, PartialEq, Eq, PartialOrd, Ord, Hash)]
pub struct Month(pub u16);

impl Month {
    /// The month of a year of 2000 to 2099; another gets 23, as its first day does.
    pub fn new(year: u16, month: u16) -> Result<Month, Refusal> {
        Day::new(year, month, 1).map(|_| Month(12 * (year - 2000) + month - 1))
    }
}

impl fmt::Display for Month {
    fn fmt(&self, f: &mut fmt::Formatter<'_>) -> fmt::Result {
        write!(f, "{:04}-{:02}", 2000 + self.0 / 12, self.0 % 12 + 1)
    }
}

impl Product {
    /// The key of a maturity of this product: its month as 2008-04, of a weekly option its Friday as 2008-04-25.
    pub fn key_text(&self, key: u16) -> String {
        if self.kind == WEEKLY {
            Day(key).to_string()
        } else {
            Month(key).to_string()
        }
    }
}

/// In the currency, with eight digits after the point: `48.00000000`, `-0.00000001`, zero without a sign.
impl fmt::Display for Amount {
    fn fmt(&self, f: &mut fmt::Formatter<'_>) -> fmt::Result {
        let parts = self.amount % 10_000 + u64::from(self.rest / 10_000);
        let whole = self.amount / 10_000 + parts / 10_000;
        let sign = if self.negative && (self.amount != 0 || self.rest != 0) { "-" } else { "" };
        write!(f, "{sign}{whole}.{:04}{:04}", parts % 10_000, self.rest % 10_000)
    }
}

/// A number of ten-thousandths, such as a price, a tick or a size, as `12.3400`.
pub fn decimal_text(number: u32) -> String {
    format!("{}.{:04}", number / 10_000, number % 10_000)
}

// Digits and nothing else, at least one.
fn is_number(text: &str) -> bool {
    !text.is_empty() && text.bytes().all(|byte| byte.is_ascii_digit())
}

/// The ten-thousandths of digits, perhaps with a point and one to four digits after it. None for another text, and for
/// one above 429496.7295.
pub fn decimal_of(text: &str) -> Option<u32> {
    let (whole, parts) = text.split_once('.').unwrap_or((text, "0"));
    if !is_number(whole) || !is_number(parts) || parts.len() > 4 {
        return None;
    }
    format!("{whole}{parts:0<4}").parse().ok()
}
