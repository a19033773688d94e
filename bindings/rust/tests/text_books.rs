//! Text books: Latin-1 or bytes as they are, and no more of them than fit.

use rafttwine::{text, Book, FieldError, TextBook};

#[test]
fn a_book_holds_so_many_bytes() {
    const MOST: usize = 4_194_304;
    let mut texts = TextBook::new();
    let long = [b'x'; 65_535];
    for number in 0..63 {
        texts.add_bytes(number, &long).unwrap();
    }
    let room = MOST - texts.len() - 6;
    let error = texts.add_bytes(63, &long[..room + 1]).unwrap_err();
    assert_eq!(error.to_string(), "record 64, TextBook: 4194305 bytes, and at most 4194304 are allowed");
    texts.add_bytes(63, &long[..room]).unwrap();
    assert_eq!(text(&texts, &texts, 63).map(|found| found.part.len()), Ok(room));
}

#[test]
fn texts_that_do_not_fit() {
    let mut texts = TextBook::new();
    texts.add(1, "Büro").unwrap();
    let before = texts.clone();
    let sentence = |result: Result<&mut TextBook, FieldError>| result.unwrap_err().to_string();
    assert_eq!(sentence(texts.add(2, "100 €")), "record 2, TextBook.text: '€' is not in Latin-1");
    assert_eq!(sentence(texts.add_bytes(2, &[0; 65_536])), "record 2, TextBook.text: 65536 bytes, and at most 65535 are allowed");
    assert_eq!(texts, before);
    assert_eq!(text(&texts, &Book::new(), 1).unwrap().part, b"B\xfcro");
}
