//! Refusals, and their questions in words.

use std::fmt;
use std::num::NonZeroU8;

/// The first question that was answered no.
///
/// | number | question |
/// |---|---|
/// | 1 | Is the length a multiple of 512, from 1,024 to 65,536? |
/// | 2 | Is every check right? |
/// | 3 | Is every header right? |
/// | 4 | Do 1 to 16 calendar blocks of consecutive rising years come first, then at least one product block and no other kind? |
/// | 5 | Is every calendar block clean? |
/// | 6 | Does every run of seven days in the cover hold a trading day? |
/// | 7 | Is every record as stated, and all that must be zero zero? |
/// | 8 | Do the ids strictly rise over the file? |
/// | 9 | Is the id there? |
/// | 10 | Is the table sound? |
/// | 11 | Is the day in the cover? |
/// | 12 | Is it not before the table's date? |
/// | 13 | Is it after the table's date? |
/// | 14 | Is it a trading day? |
/// | 15 | With it closed, does every seven-day run still hold a trading day? |
/// | 16 | Are all months of the fresh listing in the cover? |
/// | 17 | Is the due day in the cover? |
/// | 18 | Is the month listed? |
/// | 19 | Is the order or agreed price 1 to 999,999,999? |
/// | 20 | Is it a multiple of the tick? |
/// | 21 | Is it a future? |
/// | 22 | Is the final price 0 to 999,999,999 and are the contracts 1 to 100,000? |
/// | 23 | Is it a date, or day number, of 2000–2099? |
/// | 24 | Is the date at least seven days after the cover's first day? |
/// | 25 | Is the buffer long enough for the file, and the file at most 65,536 bytes? |
/// | 26 | Is the day a closed Monday to Friday? |
/// | 27 | Does the front maturity stay the same month or Friday, whatever its day? |
/// | 28 | Are p and q in range? |
/// | 29 | Are the new size, 1 ten-thousandth to 65,535.9999 shares, and the new price, 1 to 999,999,999, in range? |
/// | 30 | Is b from 1 to 200 and the table number 0 to 199? |
/// | 31 | For joining, is it not yet queued, and for leaving, is it queued? |
///
/// What each means when it comes is in docs/REFUSALS.md. Of a queue 10 says that the queue is not sound, of a made-up
/// calendar 4 that its cover is not 1 to 16 years from 2000 to 2099.
#[derive(Clone, Copy, Debug, PartialEq, Eq, Hash)]
pub struct Refusal(NonZeroU8);

/// The value of an accepted call, or its refusal.
pub(crate) fn judged<T>(refusal: u8, value: T) -> Result<T, Refusal> {
    match NonZeroU8::new(refusal) {
        None => Ok(value),
        Some(number) => Err(Refusal(number)),
    }
}

impl Refusal {
    /// The refusal of a number other than 0.
    pub fn new(number: u8) -> Option<Refusal> {
        NonZeroU8::new(number).map(Refusal)
    }

    /// Its number.
    pub fn number(self) -> u8 {
        self.0.get()
    }

    /// The question; empty for a number that has none.
    pub fn question(self) -> &'static str {
        match self.number() {
            1 => "Is the length a multiple of 512, from 1,024 to 65,536?",
            2 => "Is every check right?",
            3 => "Is every header right?",
            4 => "Do 1 to 16 calendar blocks of consecutive rising years come first, then at least one product block and no other kind?",
            5 => "Is every calendar block clean?",
            6 => "Does every run of seven days in the cover hold a trading day?",
            7 => "Is every record as stated, and all that must be zero zero?",
            8 => "Do the ids strictly rise over the file?",
            9 => "Is the id there?",
            10 => "Is the table sound?",
            11 => "Is the day in the cover?",
            12 => "Is it not before the table's date?",
            13 => "Is it after the table's date?",
            14 => "Is it a trading day?",
            15 => "With it closed, does every seven-day run still hold a trading day?",
            16 => "Are all months of the fresh listing in the cover?",
            17 => "Is the due day in the cover?",
            18 => "Is the month listed?",
            19 => "Is the order or agreed price 1 to 999,999,999?",
            20 => "Is it a multiple of the tick?",
            21 => "Is it a future?",
            22 => "Is the final price 0 to 999,999,999 and are the contracts 1 to 100,000?",
            23 => "Is it a date, or day number, of 2000–2099?",
            24 => "Is the date at least seven days after the cover's first day?",
            25 => "Is the buffer long enough for the file, and the file at most 65,536 bytes?",
            26 => "Is the day a closed Monday to Friday?",
            27 => "Does the front maturity stay the same month or Friday, whatever its day?",
            28 => "Are p and q in range?",
            29 => "Are the new size, 1 ten-thousandth to 65,535.9999 shares, and the new price, 1 to 999,999,999, in range?",
            30 => "Is b from 1 to 200 and the table number 0 to 199?",
            31 => "For joining, is it not yet queued, and for leaving, is it queued?",
            _ => "",
        }
    }
}

impl fmt::Display for Refusal {
    fn fmt(&self, f: &mut fmt::Formatter<'_>) -> fmt::Result {
        write!(f, "refusal {}: {}", self.number(), self.question())
    }
}

impl std::error::Error for Refusal {}
