//! The exported functions and the structs of their answers. Each function takes every value of
//! its arguments; a pointer and a length are a slice's.

use crate::{Amount, Calendar, Counts, Cover, Intake, Product, Queue, Table};

#[repr(C)]
pub struct Id {
    pub bytes: [u8; 4],
}

#[repr(C)]
pub struct RecordBytes {
    pub bytes: [u8; 32],
}

#[repr(C)]
pub struct Outcome {
    pub refusal: u8,
    pub entered: u16,
    pub left: u16,
    pub table: Table,
}

#[repr(C)]
pub struct Measured {
    pub refusal: u8,
    pub price: u32,
    pub table: Table,
}

#[repr(C)]
pub struct DayReply {
    pub refusal: u8,
    pub day: u16,
}

#[repr(C)]
pub struct DateReply {
    pub refusal: u8,
    pub year: u16,
    pub month: u16,
    pub day: u16,
}

#[repr(C)]
pub struct LastDayReply {
    pub refusal: u8,
    pub day: u16,
    pub back: u16,
}

#[repr(C)]
pub struct CashReply {
    pub refusal: u8,
    pub cash: Amount,
}

#[repr(C)]
pub struct Loaded {
    pub refusal: u8,
    pub counts: Counts,
}

#[derive(Clone, Debug)]
#[repr(C)]
pub struct FileCalendar {
    pub refusal: u8,
    pub calendar: Calendar,
}

#[repr(C)]
pub struct Written {
    pub refusal: u8,
    pub length: usize,
}

#[repr(C)]
pub struct Taken {
    pub refusal: u8,
    pub state: Intake,
}

#[repr(C)]
pub struct Finished {
    pub refusal: u8,
    pub counts: Counts,
    pub state: Intake,
}

#[repr(C)]
pub struct VerdictReply {
    pub refusal: u8,
    pub same: bool,
    pub key: u16,
}

#[repr(C)]
pub struct Handled {
    pub refusal: u8,
    pub taken: Queue,
    pub queue: Queue,
}

#[repr(C)]
pub struct Changed {
    pub refusal: u8,
    pub queue: Queue,
}

#[repr(C)]
pub struct Made {
    pub refusal: u8,
    pub calendar: Calendar,
}

#[repr(C)]
pub struct ProductReply {
    pub refusal: u8,
    pub product: Product,
}

#[derive(Clone, Copy, Debug)]
#[repr(C)]
pub struct SaidNotices {
    pub fits: bool,
    pub date: u16,
    pub opened: u32,
    pub count: u32,
    pub bad: u32,
}

#[derive(Clone, Debug)]
#[repr(C)]
pub struct FlatDelivered {
    pub fits: bool,
    pub refusal: u8,
    pub table: Table,
}

#[repr(C)]
pub struct Text {
    pub refusal: u8,
    pub fits: bool,
    pub length: usize,
}

#[repr(C)]
pub struct Line {
    pub bytes: [u8; 64],
    pub length: usize,
}

#[derive(Clone, Copy, Debug)]
#[repr(C)]
pub struct Receipt {
    pub next: usize,
    pub rows: u32,
    pub lines: u32,
    pub bad: u32,
    pub begun: bool,
    pub over: bool,
}

#[repr(C)]
pub struct Found {
    pub refusal: u8,
    pub fits: bool,
    pub next: u32,
    pub lines: u32,
    pub length: usize,
}

extern "C" {
    pub fn scullpouch_interface() -> u32;
    pub fn scullpouch_day(year: u16, month: u16, day: u16) -> DayReply;
    pub fn scullpouch_date(day: u16) -> DateReply;
    pub fn scullpouch_load(file: *const u8, length: usize) -> Loaded;
    pub fn scullpouch_open(file: *const u8, length: usize, id: Id, date: u16) -> Outcome;
    pub fn scullpouch_judge_file(file: *const u8, length: usize) -> FileCalendar;
    pub fn scullpouch_open_in(judged: FileCalendar, file: *const u8, length: usize, id: Id, date: u16) -> Outcome;
    pub fn scullpouch_roll(table: Table, date: u16) -> Outcome;
    pub fn scullpouch_close(table: Table, day: u16) -> Outcome;
    pub fn scullpouch_reopen(table: Table, day: u16) -> Outcome;
    pub fn scullpouch_measure(table: Table, p: u16, q: u16, price: u32) -> Measured;
    pub fn scullpouch_last_trading_day(table: Table, key: u16) -> LastDayReply;
    pub fn scullpouch_due(table: Table, day: u16) -> DayReply;
    pub fn scullpouch_tick(table: Table, price: u32) -> u8;
    pub fn scullpouch_cash(table: Table, contracts: u32, agreed: u32, final_price: u32) -> CashReply;
    pub fn scullpouch_judge(table: Table, list: *const u16, count: usize) -> VerdictReply;
    pub fn scullpouch_write(
        calendar: Calendar,
        records: *const u8,
        length: usize,
        buffer: *mut u8,
        room: usize,
    ) -> Written;
    pub fn scullpouch_record(product: Product) -> RecordBytes;
    pub fn scullpouch_announce(blocks: u16) -> Taken;
    pub fn scullpouch_take(state: Intake, block: *const u8, length: usize) -> Taken;
    pub fn scullpouch_finish(state: Intake) -> Finished;
    pub fn scullpouch_queue() -> Queue;
    pub fn scullpouch_handle(queue: Queue, b: u16) -> Handled;
    pub fn scullpouch_join(queue: Queue, table: u16) -> Changed;
    pub fn scullpouch_leave(queue: Queue, table: u16) -> Changed;
    pub fn scullpouch_make(seed: u32, cover: Cover) -> Made;
    pub fn scullpouch_product_at(file: *const u8, length: usize, place: usize) -> ProductReply;
    pub fn scullpouch_read_notices(
        text: *const u8,
        length: usize,
        calls: *mut u32,
        calls_room: usize,
        ids: *mut u8,
        ids_room: usize,
    ) -> SaidNotices;
    pub fn scullpouch_deliver(
        judged: FileCalendar,
        file: *const u8,
        length: usize,
        notices: SaidNotices,
        calls: *const u32,
        calls_length: usize,
        ids: *const u8,
        ids_length: usize,
        id: Id,
        refusals: *mut u8,
        room: usize,
    ) -> FlatDelivered;
    pub fn scullpouch_rows(table: Table, buffer: *mut u8, room: usize) -> Text;
    pub fn scullpouch_rows_heading() -> Line;
    pub fn scullpouch_refused_call(
        id: Id,
        notices: SaidNotices,
        refusal: u8,
        calls: *const u32,
        calls_length: usize,
        refusals: *const u8,
        refusals_length: usize,
        i: u32,
    ) -> Line;
    pub fn scullpouch_unknown_measure(
        file: *const u8,
        length: usize,
        calls: *const u32,
        calls_length: usize,
        ids: *const u8,
        ids_length: usize,
        i: u32,
    ) -> Line;
    pub fn scullpouch_receive(
        state: Receipt,
        file: *const u8,
        length: usize,
        text: *const u8,
        text_length: usize,
        ids: *mut u8,
        ids_room: usize,
        keys: *mut u16,
        keys_room: usize,
        days: *mut u16,
        days_room: usize,
        fulls: *mut u8,
        fulls_room: usize,
        numbers: *mut u16,
        numbers_room: usize,
        backs: *mut u16,
        backs_room: usize,
    ) -> Receipt;
    pub fn scullpouch_differences(
        product: Product,
        delivered: FlatDelivered,
        rows: u32,
        ids: *const u8,
        ids_length: usize,
        keys: *const u16,
        keys_length: usize,
        days: *const u16,
        days_length: usize,
        fulls: *const u8,
        fulls_length: usize,
        numbers: *const u16,
        numbers_length: usize,
        backs: *const u16,
        backs_length: usize,
        places: *mut u16,
        places_room: usize,
        from: u32,
        buffer: *mut u8,
        room: usize,
    ) -> Found;
    pub fn scullpouch_differences_heading() -> Line;
    pub fn scullpouch_unknown_product(
        file: *const u8,
        length: usize,
        ids: *const u8,
        ids_length: usize,
        i: u32,
    ) -> Line;
}
