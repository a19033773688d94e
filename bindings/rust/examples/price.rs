//! A desk's price, from rows to what a salesperson reads aloud:  cargo run --example price

use rafttwine::{calendar_of, price_of, Article, Book, Cents, Day, FieldError, Percent, PriceRow, Question, Rule, TextBook};

fn book() -> Result<Book, FieldError> {
    let (june, end_of_june, end_of_year) = (Day::new(2026, 6, 1)?, Day::new(2026, 6, 30)?, Day::new(2026, 12, 31)?);
    let mut book = Book::new();
    book.add(Article::new("T160"))?;
    book.add(PriceRow::base("T160", Cents(45_900)).days(Day::FIRST, end_of_year).text(1))?;
    book.add(PriceRow::surcharge("T160", Percent::hundredths(1_250)).condition("OAK").text(2))?;
    book.add(PriceRow::discount("T160", Percent::hundredths(-1_000)).rule(Rule::OfTotalSoFar).days(june, end_of_june).text(3))?;
    Ok(book)
}

fn texts() -> Result<TextBook, FieldError> {
    let mut texts = TextBook::new();
    texts.add(1, "Desk, 160 x 80 cm")?.add(2, "Table top in oak")?.add(3, "Summer promotion, all of June")?;
    Ok(texts)
}

fn main() -> Result<(), Box<dyn std::error::Error>> {
    let (book, texts) = (book()?, texts()?);
    for warning in book.warnings() {
        eprintln!("warning: {warning}");
    }

    let (granted, last_of_june) = (["oak", "castor"], Day::new(2026, 6, 30)?);
    let question = Question::new("T160", last_of_june).quantity(4).granted(granted).bytes()?;
    println!("T160 on {last_of_june}\n");
    println!("{}\n", price_of(&book, &question)?.table().texts(&texts, &texts).granted(&granted));

    println!("One piece");
    for stretch in calendar_of(&book, &question, Day::new(2027, 1, 31)?)? {
        println!("{stretch}");
    }
    Ok(())
}
