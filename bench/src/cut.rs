//! Two hundred prices from one large book, and the same from books that were cut from it beforehand, one for each article.

use crate::books::HEAD;
use crate::catalog::{self, Catalog, Manner};
use crate::dice::Dice;
use crate::library;
use crate::timing::{self, Row, Subject};
use second::price::LINE_LENGTH;

const ROWS: usize = 40_000;
const PRICES: usize = 200;
const GRANTED: usize = 5;
const ROUNDS: usize = 10;
const MOST_LINES: usize = 99 * LINE_LENGTH;

const ARTICLE: u8 = 1;
const PRICE: u8 = 2;

pub fn measure(dice: &mut Dice) -> Vec<Row> {
    let whole = catalog::catalog(dice, ROWS, &Manner::price_lists());
    let asked = asked(dice, &whole);
    for one in &asked {
        let (mut from_whole, mut from_cut) = ([0xEE; MOST_LINES], [0xEE; MOST_LINES]);
        let answer = library::price(&whole.bytes, &one.question, &mut from_whole);
        assert_eq!(answer, library::price(&one.cut, &one.question, &mut from_cut), "a cut book has another answer");
        assert_eq!(from_whole, from_cut, "a cut book has other lines");
    }
    let subjects = [
        Subject::new(1, |book| library::book_ok(book).into()),
        Subject::new(1, |book| asked.iter().map(|one| library::price(book, &one.question, &mut [0; MOST_LINES]).lines).sum()),
        Subject::new(1, |_| asked.iter().map(|one| library::price(&one.cut, &one.question, &mut [0; MOST_LINES]).lines).sum()),
    ];
    let times = timing::best_times(&subjects, &whole.bytes, ROUNDS);
    vec![Row {
        call: "price",
        input: format!("{PRICES} prices, one book or a book for each article"),
        size: format!("price rows {ROWS}, names {GRANTED}"),
        times: [times[0], times[1], times[2]],
        pass: None,
        beside: "same answers and lines".to_string(),
    }]
}

/// A question, and the book cut for its article.
struct Asked {
    question: Vec<u8>,
    cut: Vec<u8>,
}

fn asked(dice: &mut Dice, book: &Catalog) -> Vec<Asked> {
    let any = |dice: &mut Dice| book.articles[dice.index(book.articles.len())].as_str();
    (0..PRICES)
        .map(|_| any(dice))
        .map(|article| Asked { question: catalog::question(article, GRANTED).bytes(), cut: cut(&book.bytes, article.as_bytes()) })
        .collect()
}

/// The book without the articles and price rows of other numbers.
fn cut(book: &[u8], article: &[u8]) -> Vec<u8> {
    let mut kept = book[..HEAD].to_vec();
    let mut rest = &book[HEAD..];
    while let [high, low, ..] = *rest {
        let (record, behind) = rest.split_at(2 + usize::from(u16::from_be_bytes([high, low])));
        let of_another = matches!(record[2], ARTICLE | PRICE) && record[4..][..usize::from(record[3])] != *article;
        if !of_another {
            kept.extend_from_slice(record);
        }
        rest = behind;
    }
    let length = u32::try_from(kept.len()).expect("a part of a book is no longer than the book");
    kept[..4].copy_from_slice(&length.to_be_bytes());
    kept
}
