//! The layout, which every language must share: the size of each struct, and where each field stands.

use crate::calls::*;
use crate::*;
use std::mem::{offset_of, size_of};

macro_rules! layout {
    ($name:ty, $size:literal, $($field:ident $offset:literal),+) => {
        const _: () = assert!(size_of::<$name>() == $size $(&& offset_of!($name, $field) == $offset)+);
    };
}

layout!(Id, 4, bytes 0);
layout!(RecordBytes, 32, bytes 0);
layout!(Product, 24, id 0, group 4, market 8, kind 12, currency 13, size 16, tick 20);
layout!(Cover, 4, first_year 0, years 2);
layout!(Calendar, 1476, cover 0, closed 4, exchange 740);
layout!(Maturity, 8, key 0, day 2, back 4, number 6);
layout!(Table, 1624, product 0, calendar 24, date 1500, given 1502, maturities 1504);
layout!(Outcome, 1632, refusal 0, entered 2, left 4, table 8);
layout!(Measured, 1632, refusal 0, price 4, table 8);
layout!(DayReply, 4, refusal 0, day 2);
layout!(DateReply, 8, refusal 0, year 2, month 4, day 6);
layout!(LastDayReply, 6, refusal 0, day 2, back 4);
layout!(Amount, 24, negative 0, amount 8, rest 16);
layout!(CashReply, 32, refusal 0, cash 8);
layout!(Counts, 4, years 0, records 2);
layout!(Loaded, 6, refusal 0, counts 2);
layout!(FileCalendar, 1478, refusal 0, calendar 2);
layout!(Written, 16, refusal 0, length 8);
layout!(Intake, 18, announced 0, taken 2, lowest 4, first_year 6, years 8, idle 10, records 12, last_id 14);
layout!(Taken, 20, refusal 0, state 2);
layout!(Finished, 24, refusal 0, counts 2, state 6);
layout!(VerdictReply, 4, refusal 0, same 1, key 2);
layout!(Queue, 402, tables 0, count 400);
layout!(Handled, 806, refusal 0, taken 2, queue 404);
layout!(Changed, 404, refusal 0, queue 2);
layout!(Made, 1478, refusal 0, calendar 2);
layout!(ProductReply, 28, refusal 0, product 4);
layout!(SaidNotices, 16, fits 0, date 2, opened 4, count 8, bad 12);
layout!(FlatDelivered, 1628, fits 0, refusal 1, table 4);
layout!(Text, 16, refusal 0, fits 1, length 8);
layout!(Line, 72, bytes 0, length 64);
layout!(Receipt, 24, next 0, rows 8, lines 12, bad 16, begun 20, over 21);
layout!(Found, 24, refusal 0, fits 1, next 4, lines 8, length 16);
