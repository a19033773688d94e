//! The calls as C has them: what they take, return and owe is said in rafttwine.h. The safe calls of this crate stand on these, and
//! so do Rafttwine's own tests and benchmark; nobody else should need them.

/// The answer of [`rafttwine_price`].
#[repr(C)]
#[derive(Clone, Copy, Debug)]
#[allow(missing_docs)]
pub struct PriceAnswer {
    pub unit: i64,
    pub total: i64,
    pub lines: u64,
    pub unused: u32,
    pub unused_count: u8,
    pub number: u8,
    pub currency: [u8; 3],
}

/// The answer of [`rafttwine_price_derived`].
#[repr(C)]
#[derive(Clone, Copy, Debug)]
#[allow(missing_docs)]
pub struct DerivedAnswer {
    pub unit: i64,
    pub total: i64,
    pub lines: u64,
    pub place: u64,
    pub unused: u32,
    pub unused_count: u8,
    pub number: u8,
    pub currency: [u8; 3],
}

/// The answer of [`rafttwine_calendar`] and [`rafttwine_calendar_list`].
#[repr(C)]
#[derive(Clone, Copy, Debug)]
#[allow(missing_docs)]
pub struct CalendarAnswer {
    pub length: u64,
    pub number: u8,
}

/// The answer of [`rafttwine_basket`] and [`rafttwine_final_number`].
#[repr(C)]
#[derive(Clone, Copy, Debug)]
#[allow(missing_docs)]
pub struct Written {
    pub length: u64,
    pub number: u8,
}

/// The answer of [`rafttwine_read_prices`], [`rafttwine_write_prices`] and [`rafttwine_derive`].
#[repr(C)]
#[derive(Clone, Copy, Debug)]
#[allow(missing_docs)]
pub struct Placed {
    pub length: u64,
    pub place: u64,
    pub number: u8,
}

/// A record of the list that [`rafttwine_calendar_list`] fills.
#[repr(C)]
#[derive(Clone, Copy, Debug, Default)]
#[allow(missing_docs)]
pub struct StretchRecord {
    pub first: u32,
    pub last: u32,
    pub unit: i64,
    pub refusal: u8,
    pub currency: [u8; 3],
}

/// The answer of [`rafttwine_packaging`].
#[repr(C)]
#[derive(Clone, Copy, Debug)]
#[allow(missing_docs)]
pub struct PackagingAnswer {
    pub gross: i64,
    pub values: [i64; 8],
    pub number: u8,
    pub present: u8,
    pub units: [u8; 9],
}

/// The answer of [`rafttwine_text`].
#[repr(C)]
#[derive(Clone, Copy, Debug)]
#[allow(missing_docs)]
pub struct TextAnswer {
    pub place: u64,
    pub length: u64,
    pub number: u8,
    pub book: u8,
}

#[allow(missing_docs)]
extern "C" {
    pub fn rafttwine_price(
        book: *const u8,
        book_length: usize,
        question: *const u8,
        question_length: usize,
        lines: *mut u8,
        lines_length: usize,
    ) -> PriceAnswer;
    pub fn rafttwine_basket(
        book: *const u8,
        book_length: usize,
        questions: *const u8,
        questions_length: usize,
        out: *mut u8,
        out_length: usize,
    ) -> Written;
    pub fn rafttwine_calendar(
        book: *const u8,
        book_length: usize,
        question: *const u8,
        question_length: usize,
        end: u32,
        out: *mut u8,
        out_length: usize,
    ) -> CalendarAnswer;
    pub fn rafttwine_calendar_list(
        book: *const u8,
        book_length: usize,
        question: *const u8,
        question_length: usize,
        end: u32,
        out: *mut StretchRecord,
        out_count: usize,
    ) -> CalendarAnswer;
    pub fn rafttwine_final_number(
        book: *const u8,
        book_length: usize,
        question: *const u8,
        question_length: usize,
        out: *mut u8,
        out_length: usize,
    ) -> Written;
    pub fn rafttwine_packaging(book: *const u8, book_length: usize, question: *const u8, question_length: usize)
        -> PackagingAnswer;
    pub fn rafttwine_text(
        asked: *const u8,
        asked_length: usize,
        fallback: *const u8,
        fallback_length: usize,
        number: u32,
    ) -> TextAnswer;
    pub fn rafttwine_read_prices(file: *const u8, file_length: usize, out: *mut u8, out_length: usize) -> Placed;
    pub fn rafttwine_write_prices(book: *const u8, book_length: usize, out: *mut u8, out_length: usize) -> Placed;
    pub fn rafttwine_derive(
        question: *const u8,
        question_length: usize,
        properties: *const u8,
        properties_length: usize,
        relation: *const u8,
        relation_length: usize,
        out: *mut u8,
        out_length: usize,
    ) -> Placed;
    pub fn rafttwine_price_derived(
        book: *const u8,
        book_length: usize,
        question: *const u8,
        question_length: usize,
        properties: *const u8,
        properties_length: usize,
        relation: *const u8,
        relation_length: usize,
        lines: *mut u8,
        lines_length: usize,
    ) -> DerivedAnswer;
    pub fn rafttwine_version() -> u32;
}
