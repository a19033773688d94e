//! The calls of the archive as the Rust bindings declare them, with answers as the second implementation has them. The benchmark
//! takes them from here too.

use rafttwine::raw;
use second::{CalendarAnswer, DerivedAnswer, PackagingAnswer, Placed, PriceAnswer, Stretch, TextAnswer, Written};

// Sound, all of them: each pointer and length are those of one slice, borrowed for the whole call; any bytes make an answer.

pub fn price(book: &[u8], question: &[u8], lines: &mut [u8]) -> PriceAnswer {
    let answer = unsafe {
        raw::rafttwine_price(book.as_ptr(), book.len(), question.as_ptr(), question.len(), lines.as_mut_ptr(), lines.len())
    };
    let raw::PriceAnswer { unit, total, lines, unused, unused_count, number, currency } = answer;
    PriceAnswer { unit, total, lines, unused, unused_count, number, currency }
}

pub fn basket(book: &[u8], questions: &[u8], out: &mut [u8]) -> Written {
    written(unsafe {
        raw::rafttwine_basket(book.as_ptr(), book.len(), questions.as_ptr(), questions.len(), out.as_mut_ptr(), out.len())
    })
}

pub fn calendar(book: &[u8], question: &[u8], end: u32, out: &mut [u8]) -> CalendarAnswer {
    listed(unsafe {
        raw::rafttwine_calendar(book.as_ptr(), book.len(), question.as_ptr(), question.len(), end, out.as_mut_ptr(), out.len())
    })
}

/// The list itself is lent, as a list of the other type of records: they lie alike, which `structs.rs` holds both to.
pub fn calendar_list(book: &[u8], question: &[u8], end: u32, out: &mut [Stretch]) -> CalendarAnswer {
    let (list, count) = (out.as_mut_ptr().cast::<raw::StretchRecord>(), out.len());
    listed(unsafe { raw::rafttwine_calendar_list(book.as_ptr(), book.len(), question.as_ptr(), question.len(), end, list, count) })
}

pub fn final_number(book: &[u8], question: &[u8], out: &mut [u8]) -> Written {
    written(unsafe {
        raw::rafttwine_final_number(book.as_ptr(), book.len(), question.as_ptr(), question.len(), out.as_mut_ptr(), out.len())
    })
}

pub fn packaging(book: &[u8], question: &[u8]) -> PackagingAnswer {
    let answer = unsafe { raw::rafttwine_packaging(book.as_ptr(), book.len(), question.as_ptr(), question.len()) };
    let raw::PackagingAnswer { gross, values, number, present, units } = answer;
    PackagingAnswer { gross, values, number, present, units }
}

pub fn text(asked: &[u8], fallback: &[u8], number: u32) -> TextAnswer {
    let answer = unsafe { raw::rafttwine_text(asked.as_ptr(), asked.len(), fallback.as_ptr(), fallback.len(), number) };
    let raw::TextAnswer { place, length, number, book } = answer;
    TextAnswer { place, length, number, book }
}

pub fn read_prices(file: &[u8], out: &mut [u8]) -> Placed {
    placed(unsafe { raw::rafttwine_read_prices(file.as_ptr(), file.len(), out.as_mut_ptr(), out.len()) })
}

pub fn write_prices(book: &[u8], out: &mut [u8]) -> Placed {
    placed(unsafe { raw::rafttwine_write_prices(book.as_ptr(), book.len(), out.as_mut_ptr(), out.len()) })
}

pub fn derive(question: &[u8], properties: &[u8], relation: &[u8], out: &mut [u8]) -> Placed {
    let [(question, asked), (properties, held), (relation, said)] = [question, properties, relation].map(lent);
    placed(unsafe { raw::rafttwine_derive(question, asked, properties, held, relation, said, out.as_mut_ptr(), out.len()) })
}

pub fn price_derived(book: &[u8], question: &[u8], properties: &[u8], relation: &[u8], lines: &mut [u8]) -> DerivedAnswer {
    let [(book, rows), (question, asked)] = [book, question].map(lent);
    let [(properties, held), (relation, said)] = [properties, relation].map(lent);
    let (written, room) = (lines.as_mut_ptr(), lines.len());
    let answer =
        unsafe { raw::rafttwine_price_derived(book, rows, question, asked, properties, held, relation, said, written, room) };
    let raw::DerivedAnswer { unit, total, lines, place, unused, unused_count, number, currency } = answer;
    DerivedAnswer { unit, total, lines, place, unused, unused_count, number, currency }
}

/// A slice as C takes it.
fn lent(bytes: &[u8]) -> (*const u8, usize) {
    (bytes.as_ptr(), bytes.len())
}

fn placed(answer: raw::Placed) -> Placed {
    let raw::Placed { length, place, number } = answer;
    Placed { length, place, number }
}

fn written(answer: raw::Written) -> Written {
    let raw::Written { length, number } = answer;
    Written { length, number }
}

fn listed(answer: raw::CalendarAnswer) -> CalendarAnswer {
    let raw::CalendarAnswer { length, number } = answer;
    CalendarAnswer { length, number }
}
