//! Percentages, factors and days, checked when they are made.

use rafttwine::{Day, Factor, Percent};

#[test]
fn percentages_read() {
    for (text, hundredths) in [("12.50", 1_250), ("12.5", 1_250), ("12", 1_200), ("-3.33", -333), ("0.05", 5), ("-0.5", -50)] {
        assert_eq!(text.parse(), Ok(Percent::hundredths(hundredths)), "{text}");
    }
    for text in ["", "-", ".5", "5.", "12,5", "1e3", "+1", "--1", "1.-5", "12.5 %", "99999999999999999999"] {
        let sentence = format!("Percent: {text:?} is no percentage, as 12.5 or -3.33 would be");
        assert_eq!(text.parse::<Percent>().unwrap_err().to_string(), sentence);
    }
    assert_eq!(
        "9223372036854775807".parse::<Percent>().unwrap_err().sentence(),
        "\"9223372036854775807\" is too great a percentage"
    );
    assert_eq!("1.000".parse::<Percent>().unwrap_err().sentence(), "\"1.000\" has more than two decimals");
}

#[test]
fn factors_read() {
    for (text, thousandths, shown) in [
        ("2.5", 2_500, "2.5"),
        ("3", 3_000, "3"),
        ("0.001", 1, "0.001"),
        ("10.000", 10_000, "10"),
        ("0", 0, "0"),
        ("01.20", 1_200, "1.2"),
    ] {
        let factor: Factor = text.parse().unwrap();
        assert_eq!(
            (factor, factor.as_thousandths(), factor.to_string().as_str()),
            (Factor::thousandths(thousandths).unwrap(), thousandths, shown)
        );
    }
    for text in ["", ".5", "5.", "2,5", "-1", "+1", "1e1", "x2", "1.-5", "99999999999"] {
        let sentence = format!("Factor: {text:?} is no factor, as 2.5 or 3 would be");
        assert_eq!(text.parse::<Factor>().unwrap_err().to_string(), sentence);
    }
    for text in ["10.001", "11", "2500", "65.536", "4294967295"] {
        let sentence = format!("Factor: {text:?} is too great a factor: 0 to 10 are allowed");
        assert_eq!(text.parse::<Factor>().unwrap_err().to_string(), sentence);
    }
    assert_eq!("1.0000".parse::<Factor>().unwrap_err().sentence(), "\"1.0000\" has more than three decimals");
    assert_eq!(Factor::thousandths(u16::MAX).unwrap_err().sentence(), "65535 thousandths, and 0 to 10000 are allowed");
    assert_eq!((Factor::ONE.to_string(), Factor::ONE.as_thousandths()), ("1".to_string(), 1_000));
}

#[test]
fn days_of_the_calendar() {
    for (year, month, in_month) in
        [(2024, 2, 29), (2023, 2, 28), (2000, 2, 29), (2400, 2, 29), (1900, 2, 28), (2500, 2, 28), (2024, 4, 30), (2024, 12, 31)]
    {
        let last = Day::new(year, month, in_month).unwrap();
        assert_eq!((last.year(), last.month(), last.day()), (year, month, in_month));
        assert_eq!(Day::of_number(last.number()), Ok(last));
        assert_eq!(Day::new(year, month, in_month + 1).unwrap_err().field(), "Day.day");
        assert_eq!(Day::new(year, month, 0).unwrap_err().field(), "Day.day");
    }
    assert_eq!(Day::new(2024, 13, 1).unwrap_err().to_string(), "Day.month: 13, and 1 to 12 are allowed");
    assert_eq!(Day::new(10_000, 1, 1).unwrap_err().to_string(), "Day.year: 10000, and 1 to 9999 are allowed");
    assert_eq!(Day::of_number(0).unwrap_err().to_string(), "Day.year: 0, and 1 to 9999 are allowed");
    assert_eq!((Day::of_number(10101), Day::of_number(99991231)), (Ok(Day::FIRST), Ok(Day::LAST)));
}
