//! The calls into a lent room take nothing from the heap, and neither does reading their answers.

mod samples;

use rafttwine::{
    basket, calendar, calendar_list, derive, final_number, packaging, price, price_derived, read_prices, text, version,
    write_prices, Refusal, StretchRecord, BASKET_ROOM, CALENDAR_ROOM, MOST_STRETCHES, NUMBER_ROOM, PRICE_ROOM,
};
use samples::{day, sample};
use std::alloc::{GlobalAlloc, Layout, System};
use std::cell::Cell;

/// The system's heap, which counts what each thread takes.
struct Counting;

thread_local!(static TAKEN: Cell<usize> = const { Cell::new(0) });

// Sound: all is left to the system's heap.
unsafe impl GlobalAlloc for Counting {
    unsafe fn alloc(&self, layout: Layout) -> *mut u8 {
        TAKEN.with(|taken| taken.set(taken.get() + 1));
        System.alloc(layout)
    }

    unsafe fn dealloc(&self, place: *mut u8, layout: Layout) {
        System.dealloc(place, layout);
    }
}

#[global_allocator]
static HEAP: Counting = Counting;

/// How often something takes from the heap.
fn taken_by(something: impl FnOnce()) -> usize {
    let before = TAKEN.with(Cell::get);
    something();
    TAKEN.with(Cell::get) - before
}

#[test]
fn the_calls_take_nothing() {
    let [book, priced, spanned, numbered, packed] =
        ["sample.book", "june_oak.question", "calendar.question", "padded.question", "carton.question"].map(sample);
    let [asked, fallback] = ["asked.texts", "fallback.texts"].map(sample);
    let [plain, chosen, relation] = ["june.question", "chosen.properties", "sample.relation"].map(sample);
    let (end, questions) = (day(20250102), [&priced[..], &numbered, &priced].concat());
    let taken = taken_by(|| {
        assert_eq!(price(&book, &priced, &mut [0; PRICE_ROOM]).unwrap().lines().count(), 3);
        let mut room = [0; BASKET_ROOM];
        let mut prices = basket(&book, &questions, &mut room).unwrap().map(|one| one.map(|price| price.lines().len()));
        assert_eq!([prices.next(), prices.next(), prices.next()], [Some(Ok(3)), Some(Err(Refusal::NoBaseLine)), Some(Ok(3))]);
        assert_eq!(calendar(&book, &spanned, end, &mut [0; CALENDAR_ROOM]).unwrap().count(), 3);
        assert_eq!(calendar_list(&book, &spanned, end, &mut [StretchRecord::default(); MOST_STRETCHES]).unwrap().count(), 3);
        assert_eq!(final_number(&book, &numbered, &mut [0; NUMBER_ROOM]).unwrap().len(), 16);
        assert!(packaging(&book, &packed).unwrap().gross.is_some());
        assert_eq!(text(&asked, &fallback, 300).unwrap().part.len(), 8);
        let mut records = [0; 64];
        assert_eq!(read_prices(b"A1;;S;B;1;;1;1;EUR;;;0;", &mut records).unwrap().len(), 36);
        assert_eq!(write_prices(&records, &mut []).unwrap_err().refusal, Refusal::BrokenBook);
        assert_eq!(derive(&plain, &chosen, &relation, &mut [0; 60]).unwrap().len(), 30);
        assert_eq!(price_derived(&book, &plain, &chosen, &relation, &mut [0; PRICE_ROOM]).unwrap().lines().count(), 3);
        assert!(derive(&plain, &chosen, b"$VARCOND\n'", &mut []).unwrap_err().spot.is_some());
        assert!(price(&[], &[], &mut []).is_err());
        assert_eq!(version().major, 2);
    });
    assert_eq!(taken, 0);
}

#[test]
fn what_takes_is_counted() {
    assert_ne!(taken_by(|| drop(sample("sample.book"))), 0);
}
