//! A price book, text books and questions for the tests: the sums worked by hand, and a smallest input for some refusals. They are
//! those of bindings/python/tests/samples.py, to the byte, which tests/python_samples.rs holds them to.
#![allow(dead_code)] // each test takes what it needs

use rafttwine::{
    Article, Book, Cents, Day, Factor, FieldError, PackagingRow, Percent, PriceRow, Property, PropertyList, Question, Rounding,
    Rule, Scheme, TextBook, Way,
};

/// A sample by its name.
pub fn sample(name: &str) -> Vec<u8> {
    let found = samples().into_iter().find(|(one, _)| one == name);
    found.unwrap_or_else(|| panic!("there is no sample {name}")).1
}

/// All samples with their names.
pub fn samples() -> Vec<(String, Vec<u8>)> {
    let mut all = vec![
        ("sample.book".to_string(), book().expect("the book is in its layout").into_bytes()),
        ("asked.texts".to_string(), texts(&[(TABLE, "table"), (OAK, "")])),
        ("fallback.texts".to_string(), texts(&[(TABLE, "Tisch"), (DISCOUNT, "Nachlass")])),
        ("chosen.properties".to_string(), chosen()),
        ("sample.relation".to_string(), RELATION.to_vec()),
        ("june_version_2.question".to_string(), june_version_2()),
    ];
    let packed = |question: Question| question.bytes().expect("the question is in its layout");
    all.extend(questions().into_iter().map(|(name, question)| (format!("{name}.question"), packed(question))));
    all
}

/// A relation that derives oak and ash from what was chosen.
const RELATION: &[u8] = b"\
    $VARCOND = 'oak' IF TOP = 'Oak' AND NOT WIDTH < 800,\n\
    $VARCOND = 'beech' IF TOP IN ('beech', 'birch') OR FINISH = 'oil',\n\
    $varcond = 'ash' if not specified FINISH\n";

fn chosen() -> Vec<u8> {
    let chosen = PropertyList::new().text("top", "OAK").number("Width", 900).none("FINISH");
    chosen.bytes().expect("the list is in its layout")
}

/// No question of this crate has version 2 without a factor; it has the same bytes but for the version.
fn june_version_2() -> Vec<u8> {
    let mut question = Question::new("A1", day(20240630)).bytes().expect("the question is in its layout");
    question[4] = 2;
    question
}

/// A day of a number that is one.
pub fn day(number: u32) -> Day {
    Day::of_number(number).expect("a day")
}

// Lines' texts.
const TABLE: u32 = 100;
const OAK: u32 = 200;
const DISCOUNT: u32 = 300;

fn texts(texts: &[(u32, &str)]) -> Vec<u8> {
    let mut book = TextBook::new();
    for (number, text) in texts {
        book.add(*number, text).expect("the text is in Latin-1");
    }
    book.into_bytes()
}

fn book() -> Result<Book, FieldError> {
    let mut book = Book::new();
    add_a1(&mut book)?;
    add_rounded(&mut book)?;
    add_refused(&mut book)?;
    add_numbered(&mut book)?;
    add_packed(&mut book)?;
    Ok(book)
}

fn add_a1(book: &mut Book) -> Result<(), FieldError> {
    let (january, june, july, december) = (day(20240101), day(20240630), day(20240701), day(20241231));
    let eighth = PriceRow::surcharge("A1", "12.50".parse::<Percent>()?);
    let discount = PriceRow::discount("A1", "-3.33".parse::<Percent>()?);
    book.add(Article::new("A1"))?;
    book.add(PriceRow::base("A1", Cents(10_000)).days(january, june).text(TABLE))?;
    book.add(PriceRow::base("A1", Cents(10_500)).days(july, december).text(TABLE))?;
    book.add(eighth.condition("OAK").days(january, december).text(OAK))?;
    book.add(discount.rule(Rule::OfTotalSoFar).days(january, december).text(DISCOUNT))?;
    Ok(())
}

/// An eighth of 10500 is 1312.50: rounded to fives, and up to whole euros.
fn add_rounded(book: &mut Book) -> Result<(), FieldError> {
    for (article, rounding) in [("R5", 1), ("R100", 2)] {
        book.add(Article::new(article))?;
        book.add(PriceRow::base(article, Cents(10_500)))?;
        book.add(PriceRow::surcharge(article, Percent::hundredths(1_250)).rounding(rounding))?;
    }
    book.add(Rounding::new(1, Way::Commercial, 5))?.add(Rounding::new(2, Way::Up, 100))?;
    Ok(())
}

fn add_refused(book: &mut Book) -> Result<(), FieldError> {
    book.add(Article::new("MIXED"))?;
    book.add(PriceRow::base("MIXED", Cents(100)))?;
    book.add(PriceRow::discount("MIXED", Cents(-10)).currency("USD"))?;
    book.add(Article::new("HUGE"))?;
    book.add(PriceRow::base("HUGE", Cents(100_000_000)))?;
    book.add(PriceRow::surcharge("HUGE", Percent::hundredths(100_000)))?;
    Ok(())
}

fn add_numbered(book: &mut Book) -> Result<(), FieldError> {
    book.add(Article::new("T100").scheme("PADDED"))?;
    book.add(Scheme::new("PADDED").between_values("_").show_hidden())?;
    book.add(Article::new("T200").scheme("TRIMMED"))?;
    book.add(Scheme::new("TRIMMED").between_values("_").show_hidden().trim())?;
    Ok(())
}

fn add_packed(book: &mut Book) -> Result<(), FieldError> {
    let carton = PackagingRow::new("T100").width(800).height(720).depth(45).volume(26).tare(2_000).net(15_000).items(2).packs(1);
    book.add(carton.length_unit("MMT").volume_unit("LTR").weight_unit("KGM"))?;
    book.add(PackagingRow::new("*").condition("OAK").net(3_000).weight_unit("KGM"))?;
    book.add(PackagingRow::new("*").condition("POUNDS").net(1).weight_unit("LBR"))?;
    book.add(PackagingRow::new("T200").width(-1).length_unit("CMT"))?;
    book.add(PackagingRow::new("T200").condition("WIDE").width(3).length_unit("CMT"))?;
    Ok(())
}

fn questions() -> [(&'static str, Question<'static>); 20] {
    let june = |article| Question::new(article, day(20240630));
    let twice_and_a_half = Factor::thousandths(2_500).expect("a factor");
    let properties = [Property::valued(4, "OAK"), Property::hidden(2), Property::unselected(3)];
    [
        ("june_oak", june("A1").quantity(3).granted(["oak", "ash"]).currency("EUR")),
        ("june_factors", june("A1").granted(["ash"]).granted_times("oak", twice_and_a_half)),
        ("july_oak", Question::new("A1", day(20240701)).granted(["oak"]).currency("EUR")),
        ("june", june("A1")),
        ("next_year", Question::new("A1", day(20250102))),
        ("calendar", Question::new("A1", day(20240629)).granted(["oak"]).currency("EUR")),
        ("calendar_factors", Question::new("A1", day(20240629)).granted_times("oak", twice_and_a_half)),
        ("missing", june("NONE")),
        ("fives", june("R5")),
        ("euros", june("R100")),
        ("mixed", june("MIXED")),
        ("huge", june("HUGE")),
        ("padded", june("T100").properties(properties)),
        ("trimmed", june("T200").properties(properties)),
        ("carton", june("T100")),
        ("carton_oak", june("T100").granted(["oak"])),
        ("carton_factor", june("T100").granted_times("oak", twice_and_a_half)),
        ("carton_pounds", june("T100").granted(["pounds"])),
        ("carton_below", june("T200")),
        ("carton_wide", june("T200").granted(["wide"])),
    ]
}
