//! Broken calls, each of which the comparison has to notice and to make small.

mod broken;

use broken::{Broken, Rules, RIGHT};
use second::book::Way;
use second::cases::Case;
use second::compare::{compare, Call, Plan};
use second::fraction::Fraction;
use second::letters::capital;
use second::make::{Granted, Record};
use second::price::{round, Reckoning, LINE_LENGTH, PLAIN};
use second::question::{Question, FACTOR_OF_ONE};
use second::shrink::shrunk;

/// The first of many cases on which a broken call is noticed, made small.
fn noticed(broken: &Broken) -> Case {
    let call = if matches!(broken, Broken::Basket(_)) { Call::Basket } else { Call::Price };
    noticed_by(call, broken)
}

fn noticed_by(call: Call, broken: &Broken) -> Case {
    let differs = |case: &Case| differs(call, broken, case);
    let case = cases().find(differs).expect("what is broken is noticed");
    shrunk(&case, &differs)
}

fn cases() -> impl Iterator<Item = Case> {
    (0..2_000).map(|index| Case::generate_small(9, index))
}

fn differs(call: Call, broken: &Broken, case: &Case) -> bool {
    let inputs = case.inputs();
    let sizes = Plan::of(case, &inputs).sizes;
    compare(call, broken, &inputs, sizes).1.is_some()
}

#[test]
fn a_wrong_count_is_noticed() {
    let small = noticed(&Broken::Price(|answer, _| answer.unused_count -= u8::from(answer.unused_count > 1)));
    assert_eq!(small.book.len(), 2);
    assert_eq!(small.question.granted.len(), 2);
}

#[test]
fn a_byte_behind_the_output_is_noticed() {
    let small = noticed(&Broken::Price(|answer, out| {
        if let (0, Some(behind)) = (answer.number, out.get_mut(answer.lines as usize * LINE_LENGTH)) {
            *behind ^= 1;
        }
    }));
    assert_eq!(small.book.len(), 2);
}

#[test]
fn a_field_beside_a_refusal_is_noticed() {
    let small = noticed(&Broken::Price(|answer, _| answer.unused |= u32::from(answer.number == 4)));
    assert_eq!(small.book.len(), 1);
    assert!(small.question.granted.is_empty());
}

#[test]
fn a_wrong_number_of_a_question_is_noticed() {
    // The second answer of a basket, if it is a refused one.
    let small = noticed(&Broken::Basket(|answer, out| {
        if answer.length >= 66 && (3..=6).contains(&out[33]) {
            out[33] = 0;
        }
    }));
    assert!(small.book.is_empty());
    assert_eq!(small.basket.len(), 2);
    assert!(small.basket.iter().all(|question| question.granted.is_empty() && question.properties.is_empty()));
}

#[test]
fn a_byte_behind_a_basket_is_noticed() {
    let small = noticed(&Broken::Basket(|answer, out| {
        if let (0, Some(behind)) = (answer.number, out.get_mut(answer.length as usize)) {
            *behind ^= 1;
        }
    }));
    assert!(small.book.is_empty() && small.basket.is_empty());
}

#[test]
fn a_written_byte_of_a_refused_basket_is_noticed() {
    let small = noticed(&Broken::Basket(|answer, out| {
        if let (7, Some(first)) = (answer.number, out.first_mut()) {
            *first ^= 1;
        }
    }));
    assert!(small.book.is_empty());
    assert_eq!(small.basket.len(), 1);
}

// Factors.

fn by_amount(amount: fn(&Reckoning) -> i128) -> Case {
    noticed(&Broken::Rules(Rules { amount, ..RIGHT }))
}

fn factors(granted: &[Granted]) -> Vec<u16> {
    granted.iter().map(|granted| granted.factor).collect()
}

#[test]
fn a_factor_after_rounding_is_noticed() {
    let small = by_amount(|line| {
        let rounded = Fraction::whole(round(line.of_row, line.rounding));
        Reckoning { of_row: rounded, rounding: PLAIN, ..*line }.amount()
    });
    // A rounding is needed to see it, or a part of a cent.
    assert!(small.book.len() >= 3);
    assert_eq!(small.question.granted.len(), 1);
    assert_ne!(factors(&small.question.granted), [FACTOR_OF_ONE]);
}

#[test]
fn a_factor_after_add_before_is_noticed() {
    let small = by_amount(|line| {
        let before = Fraction::whole(i128::from(line.rounding.add_before));
        let of_both = Reckoning { of_row: line.of_row.plus(before), ..*line };
        round(of_both.exact().plus(before.times(-1)), line.rounding)
    });
    assert!(small.book.len() >= 3);
    assert_eq!(small.question.granted.len(), 1);
}

#[test]
fn a_factor_of_whole_cents_is_noticed() {
    // The percentage is rounded to cents before its factor is taken.
    let small = by_amount(|line| Reckoning { of_row: Fraction::whole(round(line.of_row, PLAIN)), ..*line }.amount());
    assert_eq!(small.question.version, 2);
    // Only then is the rest of a cent dropped.
    let small = by_amount(|line| round(Fraction::whole(line.exact().floor()), line.rounding));
    assert!(small.book.len() >= 2);
}

#[test]
fn a_factor_that_is_only_shown_is_noticed() {
    let small = by_amount(|line| Reckoning { factor: FACTOR_OF_ONE, ..*line }.amount());
    assert!(small.book.len() <= 3);
    assert_eq!(small.question.granted.len(), 1);
}

#[test]
fn the_last_factor_of_a_repeat_is_noticed() {
    let small = noticed(&Broken::Rules(Rules {
        read: |question| {
            let sent = question.granted.clone();
            for granted in &mut question.granted {
                let last = sent.iter().rfind(|later| later.name.eq_ignore_ascii_case(&granted.name));
                granted.factor = last.map_or(granted.factor, |last| last.factor);
            }
        },
        ..RIGHT
    }));
    assert!(small.book.len() <= 3);
    assert_eq!(small.question.granted.len(), 2);
    assert_ne!(small.question.granted[0].factor, small.question.granted[1].factor);
}

#[test]
fn a_factor_of_nothing_that_takes_the_grant_away_is_noticed() {
    let small = noticed(&Broken::Rules(Rules {
        read: |question| {
            for granted in question.granted.iter_mut().filter(|granted| granted.factor == 0) {
                granted.name = b"NOT TO BE FOUND".to_vec();
            }
        },
        ..RIGHT
    }));
    assert!(small.book.len() <= 3);
    assert!(factors(&small.question.granted).contains(&0));
}

// Letters.

/// The granted names of a question by other letters, before they are raised.
fn by_letters(read: fn(&mut Question)) -> Case {
    let small = noticed(&Broken::Rules(Rules { read, ..RIGHT }));
    assert!(small.book.len() <= 3);
    small
}

fn each_letter(question: &mut Question, letter: fn(u8) -> u8) {
    for granted in &mut question.granted {
        granted.name = granted.name.iter().copied().map(letter).collect();
    }
}

#[test]
fn another_raising_is_noticed() {
    // Umlauts that no row can have, as if they were not raised; then a byte more that is raised.
    let lost = by_letters(|question| each_letter(question, |byte| if byte > 223 && capital(byte) < byte { 161 } else { byte }));
    assert!(lost.question.granted.iter().any(|granted| granted.name.iter().any(|&byte| byte > 223)));
    for (byte, small) in [
        (223, by_letters(|question| each_letter(question, |byte| if byte == 223 { 191 } else { byte }))),
        (247, by_letters(|question| each_letter(question, |byte| if byte == 247 { 215 } else { byte }))),
        (255, by_letters(|question| each_letter(question, |byte| if byte == 255 { 223 } else { byte }))),
    ] {
        assert!(small.question.granted.iter().any(|granted| granted.name.contains(&byte)), "{byte}");
    }
}

// Halves.

/// The amount of a line with another way to the nearest multiple.
fn with_nearest(line: &Reckoning, nearest: fn(Fraction) -> i128) -> i128 {
    let (step, before) = (i128::from(line.rounding.step), i128::from(line.rounding.add_before));
    match line.rounding.way {
        Way::Commercial => {
            let steps = line.exact().plus(Fraction::whole(before)).divided_by(step);
            nearest(steps) * step + i128::from(line.rounding.add_after)
        }
        Way::Down | Way::Up => line.amount(),
    }
}

fn half_to_greater(fraction: Fraction) -> i128 {
    fraction.plus(Fraction::over(1, 2)).floor()
}

fn half_to_lesser(fraction: Fraction) -> i128 {
    fraction.plus(Fraction::over(-1, 2)).ceiling()
}

#[test]
fn halves_to_the_greater_are_noticed() {
    let small = by_amount(|line| with_nearest(line, half_to_greater));
    assert!(small.question.granted.len() <= 1);
}

#[test]
fn halves_below_zero_come_up_often() {
    let greater = Broken::Rules(Rules { amount: |line| with_nearest(line, half_to_greater), ..RIGHT });
    let count = cases().filter(|case| differs(Call::Price, &greater, case)).count();
    assert!(count >= 40, "{count}");
}

#[test]
fn halves_to_the_lesser_are_noticed() {
    let small = by_amount(|line| with_nearest(line, half_to_lesser));
    assert!(small.question.granted.len() <= 1);
}

#[test]
fn halves_towards_zero_are_noticed() {
    by_amount(|line| with_nearest(line, |steps| if steps.floor() < 0 { half_to_greater(steps) } else { half_to_lesser(steps) }));
}

#[test]
fn halves_to_even_multiples_are_noticed() {
    by_amount(|line| {
        with_nearest(line, |steps| {
            let (lesser, greater) = (half_to_lesser(steps), half_to_greater(steps));
            if lesser % 2 == 0 {
                lesser
            } else {
                greater
            }
        })
    });
}

#[test]
fn halves_by_the_sign_without_add_before_are_noticed() {
    let small = by_amount(|line| {
        let nearest = if line.exact().floor() < 0 { half_to_lesser } else { half_to_greater };
        with_nearest(line, nearest)
    });
    assert!(small.book.iter().any(|record| matches!(record, Record::Rounding(rounding) if rounding.add_before != 0)));
}

#[test]
fn the_lesser_multiple_for_all_below_zero_is_noticed() {
    // Every part of a step counts as a half.
    by_amount(|line| with_nearest(line, |steps| if steps.floor() < 0 { steps.floor() } else { steps.nearest() }));
}

// Lines and versions.

/// The bytes of lines, each changed by itself.
fn each_line(lines: Vec<u8>, change: impl Fn(&mut Vec<u8>)) -> Vec<u8> {
    let changed = |line: &[u8]| {
        let mut line = line.to_vec();
        change(&mut line);
        line
    };
    lines.chunks(LINE_LENGTH).flat_map(changed).collect()
}

#[test]
fn lines_of_14_bytes_are_noticed() {
    let small = noticed(&Broken::Rules(Rules {
        lines: |version, lines| match version {
            1 => each_line(lines, |line| line.truncate(14)),
            _ => lines,
        },
        ..RIGHT
    }));
    assert_eq!(small.question.version, 1);
    assert_eq!(small.book.len(), 2);
}

#[test]
fn another_factor_of_a_line_without_a_condition_is_noticed() {
    let without_a_condition = |_, lines| {
        each_line(lines, |line| {
            if line[5] == 0 {
                line[14..].fill(0);
            }
        })
    };
    let small = noticed(&Broken::Rules(Rules { lines: without_a_condition, ..RIGHT }));
    assert_eq!(small.book.len(), 2);
    assert!(small.question.granted.is_empty());
}

#[test]
fn calls_that_refuse_version_2_are_noticed() {
    for call in [Call::Price, Call::Calendar, Call::CalendarList, Call::FinalNumber, Call::Packaging] {
        let small = noticed_by(call, &Broken::OneVersion);
        assert_eq!(small.question.version, 2);
    }
    let small = noticed_by(Call::Basket, &Broken::OneVersion);
    assert_eq!(small.basket.len(), 1);
    assert_eq!(small.basket[0].version, 2);
}
