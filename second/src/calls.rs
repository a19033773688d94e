//! The calls as something that has several implementations.

use crate::answers::{CalendarAnswer, DerivedAnswer, PackagingAnswer, Placed, PriceAnswer, Stretch, TextAnswer, Written};

pub trait Calls {
    fn price(&self, book: &[u8], question: &[u8], out: &mut [u8]) -> PriceAnswer;
    fn calendar(&self, book: &[u8], question: &[u8], end: u32, out: &mut [u8]) -> CalendarAnswer;
    fn calendar_list(&self, book: &[u8], question: &[u8], end: u32, out: &mut [Stretch]) -> CalendarAnswer;
    fn final_number(&self, book: &[u8], question: &[u8], out: &mut [u8]) -> Written;
    fn packaging(&self, book: &[u8], question: &[u8]) -> PackagingAnswer;
    fn text(&self, asked: &[u8], fallback: &[u8], number: u32) -> TextAnswer;
    fn basket(&self, book: &[u8], questions: &[u8], out: &mut [u8]) -> Written;
}

/// The two calls of the manufacturer's price file.
pub trait FileCalls {
    fn read_prices(&self, file: &[u8], out: &mut [u8]) -> Placed;
    fn write_prices(&self, book: &[u8], out: &mut [u8]) -> Placed;
}

/// The two calls that derive conditions from a relation.
pub trait RelationCalls {
    fn price_derived(&self, book: &[u8], question: &[u8], properties: &[u8], relation: &[u8], out: &mut [u8]) -> DerivedAnswer;
    fn derive(&self, question: &[u8], properties: &[u8], relation: &[u8], out: &mut [u8]) -> Placed;
}

/// This library.
pub struct Second;

impl Calls for Second {
    fn price(&self, book: &[u8], question: &[u8], out: &mut [u8]) -> PriceAnswer {
        crate::price(book, question, out)
    }

    fn calendar(&self, book: &[u8], question: &[u8], end: u32, out: &mut [u8]) -> CalendarAnswer {
        crate::calendar(book, question, end, out)
    }

    fn calendar_list(&self, book: &[u8], question: &[u8], end: u32, out: &mut [Stretch]) -> CalendarAnswer {
        crate::calendar_list(book, question, end, out)
    }

    fn final_number(&self, book: &[u8], question: &[u8], out: &mut [u8]) -> Written {
        crate::final_number(book, question, out)
    }

    fn packaging(&self, book: &[u8], question: &[u8]) -> PackagingAnswer {
        crate::packaging(book, question)
    }

    fn text(&self, asked: &[u8], fallback: &[u8], number: u32) -> TextAnswer {
        crate::text(asked, fallback, number)
    }

    fn basket(&self, book: &[u8], questions: &[u8], out: &mut [u8]) -> Written {
        crate::basket(book, questions, out)
    }
}

impl FileCalls for Second {
    fn read_prices(&self, file: &[u8], out: &mut [u8]) -> Placed {
        crate::read_prices(file, out)
    }

    fn write_prices(&self, book: &[u8], out: &mut [u8]) -> Placed {
        crate::write_prices(book, out)
    }
}

impl RelationCalls for Second {
    fn price_derived(&self, book: &[u8], question: &[u8], properties: &[u8], relation: &[u8], out: &mut [u8]) -> DerivedAnswer {
        crate::price_derived(book, question, properties, relation, out)
    }

    fn derive(&self, question: &[u8], properties: &[u8], relation: &[u8], out: &mut [u8]) -> Placed {
        crate::derive(question, properties, relation, out)
    }
}

/// The linked archive.
#[cfg(feature = "archive")]
pub struct Archive;

/// What this library is held against: the linked archive, or itself where none is linked.
#[cfg(feature = "archive")]
pub const THEIRS: Archive = Archive;
#[cfg(not(feature = "archive"))]
pub const THEIRS: Second = Second;

#[cfg(feature = "archive")]
mod linked {
    use super::{CalendarAnswer, DerivedAnswer, PackagingAnswer, Placed, PriceAnswer, Stretch, TextAnswer, Written};

    extern "C" {
        pub fn rafttwine_price(
            book: *const u8,
            book_len: usize,
            question: *const u8,
            question_len: usize,
            lines: *mut u8,
            lines_len: usize,
        ) -> PriceAnswer;
        pub fn rafttwine_calendar(
            book: *const u8,
            book_len: usize,
            question: *const u8,
            question_len: usize,
            end: u32,
            out: *mut u8,
            out_len: usize,
        ) -> CalendarAnswer;
        pub fn rafttwine_calendar_list(
            book: *const u8,
            book_len: usize,
            question: *const u8,
            question_len: usize,
            end: u32,
            out: *mut Stretch,
            out_count: usize,
        ) -> CalendarAnswer;
        pub fn rafttwine_final_number(
            book: *const u8,
            book_len: usize,
            question: *const u8,
            question_len: usize,
            out: *mut u8,
            out_len: usize,
        ) -> Written;
        pub fn rafttwine_packaging(book: *const u8, book_len: usize, question: *const u8, question_len: usize) -> PackagingAnswer;
        pub fn rafttwine_text(
            asked: *const u8,
            asked_len: usize,
            fallback: *const u8,
            fallback_len: usize,
            number: u32,
        ) -> TextAnswer;
        pub fn rafttwine_basket(
            book: *const u8,
            book_len: usize,
            questions: *const u8,
            questions_len: usize,
            out: *mut u8,
            out_len: usize,
        ) -> Written;
        pub fn rafttwine_read_prices(file: *const u8, file_len: usize, out: *mut u8, out_len: usize) -> Placed;
        pub fn rafttwine_write_prices(book: *const u8, book_len: usize, out: *mut u8, out_len: usize) -> Placed;
        pub fn rafttwine_price_derived(
            book: *const u8,
            book_len: usize,
            question: *const u8,
            question_len: usize,
            properties: *const u8,
            properties_len: usize,
            relation: *const u8,
            relation_len: usize,
            lines: *mut u8,
            lines_len: usize,
        ) -> DerivedAnswer;
        pub fn rafttwine_derive(
            question: *const u8,
            question_len: usize,
            properties: *const u8,
            properties_len: usize,
            relation: *const u8,
            relation_len: usize,
            out: *mut u8,
            out_len: usize,
        ) -> Placed;
    }
}

// Safety of all calls below: pointer and length come from a slice that is borrowed for the whole
// call, and the answers are plain numbers for which every bit pattern is good.
#[cfg(feature = "archive")]
impl Calls for Archive {
    fn price(&self, book: &[u8], question: &[u8], out: &mut [u8]) -> PriceAnswer {
        unsafe {
            linked::rafttwine_price(book.as_ptr(), book.len(), question.as_ptr(), question.len(), out.as_mut_ptr(), out.len())
        }
    }

    fn calendar(&self, book: &[u8], question: &[u8], end: u32, out: &mut [u8]) -> CalendarAnswer {
        unsafe {
            linked::rafttwine_calendar(
                book.as_ptr(),
                book.len(),
                question.as_ptr(),
                question.len(),
                end,
                out.as_mut_ptr(),
                out.len(),
            )
        }
    }

    fn calendar_list(&self, book: &[u8], question: &[u8], end: u32, out: &mut [Stretch]) -> CalendarAnswer {
        unsafe {
            linked::rafttwine_calendar_list(
                book.as_ptr(),
                book.len(),
                question.as_ptr(),
                question.len(),
                end,
                out.as_mut_ptr(),
                out.len(),
            )
        }
    }

    fn final_number(&self, book: &[u8], question: &[u8], out: &mut [u8]) -> Written {
        unsafe {
            linked::rafttwine_final_number(
                book.as_ptr(),
                book.len(),
                question.as_ptr(),
                question.len(),
                out.as_mut_ptr(),
                out.len(),
            )
        }
    }

    fn packaging(&self, book: &[u8], question: &[u8]) -> PackagingAnswer {
        unsafe { linked::rafttwine_packaging(book.as_ptr(), book.len(), question.as_ptr(), question.len()) }
    }

    fn text(&self, asked: &[u8], fallback: &[u8], number: u32) -> TextAnswer {
        unsafe { linked::rafttwine_text(asked.as_ptr(), asked.len(), fallback.as_ptr(), fallback.len(), number) }
    }

    fn basket(&self, book: &[u8], questions: &[u8], out: &mut [u8]) -> Written {
        unsafe {
            linked::rafttwine_basket(book.as_ptr(), book.len(), questions.as_ptr(), questions.len(), out.as_mut_ptr(), out.len())
        }
    }
}

#[cfg(feature = "archive")]
impl FileCalls for Archive {
    fn read_prices(&self, file: &[u8], out: &mut [u8]) -> Placed {
        unsafe { linked::rafttwine_read_prices(file.as_ptr(), file.len(), out.as_mut_ptr(), out.len()) }
    }

    fn write_prices(&self, book: &[u8], out: &mut [u8]) -> Placed {
        unsafe { linked::rafttwine_write_prices(book.as_ptr(), book.len(), out.as_mut_ptr(), out.len()) }
    }
}

#[cfg(feature = "archive")]
impl RelationCalls for Archive {
    fn price_derived(&self, book: &[u8], question: &[u8], properties: &[u8], relation: &[u8], out: &mut [u8]) -> DerivedAnswer {
        unsafe {
            linked::rafttwine_price_derived(
                book.as_ptr(),
                book.len(),
                question.as_ptr(),
                question.len(),
                properties.as_ptr(),
                properties.len(),
                relation.as_ptr(),
                relation.len(),
                out.as_mut_ptr(),
                out.len(),
            )
        }
    }

    fn derive(&self, question: &[u8], properties: &[u8], relation: &[u8], out: &mut [u8]) -> Placed {
        unsafe {
            linked::rafttwine_derive(
                question.as_ptr(),
                question.len(),
                properties.as_ptr(),
                properties.len(),
                relation.as_ptr(),
                relation.len(),
                out.as_mut_ptr(),
                out.len(),
            )
        }
    }
}
