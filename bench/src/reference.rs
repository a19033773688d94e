//! Which bytes are a price book, and which are a question that grants nothing, in plain Rust: written for the benchmark from the scope
//! paper ("The price book", "The question") and the request for factors, to compare with. It reads field after field and leaves at
//! the first fault. Nothing in it is tuned, and nothing is done twice.

const MOST_BYTES: usize = 4_194_304;

pub fn book_ok(bytes: &[u8]) -> bool {
    book(bytes).is_some()
}

fn book(bytes: &[u8]) -> Option<()> {
    let mut reader = Reader { rest: bytes };
    holds(bytes.len() <= MOST_BYTES)?;
    holds(reader.number()? as usize == bytes.len())?;
    holds(reader.byte()? == 1)?;
    while !reader.rest.is_empty() {
        let length = reader.short()?;
        let mut body = Reader { rest: reader.take(length.into())? };
        match body.byte()? {
            1 => article(&mut body)?,
            2 => price(&mut body)?,
            3 => rounding(&mut body)?,
            4 => packaging(&mut body)?,
            5 => scheme(&mut body)?,
            _ => return None,
        }
        holds(body.rest.is_empty())?;
    }
    Some(())
}

fn article(body: &mut Reader) -> Option<()> {
    body.name(1, 40)?;
    body.name(0, 20)?;
    Some(())
}

fn price(body: &mut Reader) -> Option<()> {
    body.name(1, 40)?;
    body.name(0, 20)?;
    body.one_of(b"SP")?;
    body.one_of(b"BXD")?;
    body.one_of(&[1, 2])?;
    body.number()?; // text number
    let fixed = body.one_of(&[0, 1])?;
    body.near_zero(if fixed == 1 { 100_000_000 } else { 100_000 })?;
    holds(body.take(3)?.iter().all(u8::is_ascii_uppercase))?;
    body.number()?; // from
    body.number()?; // to
    body.number()?; // up-to quantity
    body.short()?; // rounding number
    Some(())
}

fn rounding(body: &mut Reader) -> Option<()> {
    holds(body.short()? != 0)?;
    body.one_of(&[0, 1, 2])?;
    holds((1..=1_000_000).contains(&body.number()?))?;
    body.near_zero(1_000_000)?;
    body.near_zero(1_000_000)?;
    Some(())
}

fn packaging(body: &mut Reader) -> Option<()> {
    let article = body.name(1, 40)?;
    let condition = body.name(0, 20)?;
    holds(article != b"*" || !condition.is_empty())?;
    let present = body.byte()?;
    for bit in 0..8 {
        let value = body.near_zero(if bit < 6 { 10_000_000 } else { 10_000 })?;
        holds(present & (1 << bit) != 0 || value == 0)?;
    }
    body.unit(&[b"CMT", b"FOT", b"INH", b"MMT", b"MTR"], present & 0b0000_0111 != 0)?;
    body.unit(&[b"INQ", b"LTR", b"MTQ"], present & 0b0000_1000 != 0)?;
    body.unit(&[b"KGM", b"LBR", b"MGM"], present & 0b0011_0000 != 0)?;
    Some(())
}

fn scheme(body: &mut Reader) -> Option<()> {
    body.name(1, 20)?;
    body.name(0, 8)?;
    let between = body.name(0, 8)?;
    body.one_of(&[0, 1])?;
    let hidden = body.character(b'-')?;
    let unselected = body.character(b'X')?;
    if body.one_of(&[0, 1])? == 1 {
        holds(!between.is_empty() && between != [hidden] && between != [unselected])?;
    }
    Some(())
}

/// Where a question says how many names it grants, if it is a good one and grants none.
pub fn place_of_no_names(question: &[u8]) -> Option<usize> {
    let mut reader = Reader { rest: question };
    holds(reader.number()? as usize == question.len())?;
    reader.one_of(&[1, 2])?; // version
    reader.name(1, 40)?;
    reader.one_of(b"SP")?;
    let currency = reader.take(3)?;
    holds(currency == [0; 3] || currency.iter().all(u8::is_ascii_uppercase))?;
    holds(is_day(reader.number()?))?;
    holds((1..=100_000).contains(&reader.number()?))?;
    let place = question.len() - reader.rest.len();
    reader.one_of(&[0])?;
    let properties = reader.byte()?;
    holds(properties <= 32)?;
    for _ in 0..properties {
        property(&mut reader)?;
    }
    holds(reader.rest.is_empty())?;
    Some(place)
}

fn property(reader: &mut Reader) -> Option<()> {
    let width = reader.byte()?;
    holds((1..=30).contains(&width))?;
    let value = match reader.one_of(&[0, 1, 2])? {
        0 => reader.name(1, width.into())?,
        _ => reader.name(0, 0)?,
    };
    holds(!value.iter().any(|byte| matches!(byte, b' ' | 160 | b'\\')))
}

fn is_day(date: u32) -> bool {
    let (year, month, day) = (date / 10_000, date / 100 % 100, date % 100);
    let leap = year % 4 == 0 && (year % 100 != 0 || year % 400 == 0);
    let days = match month {
        1 | 3 | 5 | 7 | 8 | 10 | 12 => 31,
        4 | 6 | 9 | 11 => 30,
        2 => 28 + u32::from(leap),
        _ => 0,
    };
    (1..=9_999).contains(&year) && (1..=days).contains(&day)
}

pub fn is_name_byte(byte: u8) -> bool {
    matches!(byte, 32..=126 | 160..=255)
}

pub fn holds(fact: bool) -> Option<()> {
    fact.then_some(())
}

pub struct Reader<'a> {
    pub rest: &'a [u8],
}

impl<'a> Reader<'a> {
    pub fn take(&mut self, count: usize) -> Option<&'a [u8]> {
        let taken = self.rest.get(..count)?;
        self.rest = &self.rest[count..];
        Some(taken)
    }

    pub fn byte(&mut self) -> Option<u8> {
        Some(self.take(1)?[0])
    }

    fn short(&mut self) -> Option<u16> {
        Some(u16::from_be_bytes(self.take(2)?.try_into().ok()?))
    }

    fn number(&mut self) -> Option<u32> {
        Some(u32::from_be_bytes(self.take(4)?.try_into().ok()?))
    }

    /// A signed number at most `most` away from zero.
    fn near_zero(&mut self, most: i32) -> Option<i32> {
        let value = self.number()? as i32;
        (-most..=most).contains(&value).then_some(value)
    }

    fn one_of(&mut self, allowed: &[u8]) -> Option<u8> {
        let byte = self.byte()?;
        allowed.contains(&byte).then_some(byte)
    }

    pub fn name(&mut self, least: usize, most: usize) -> Option<&'a [u8]> {
        let length = self.byte()?.into();
        holds((least..=most).contains(&length))?;
        let name = self.take(length)?;
        name.iter().all(|&byte| is_name_byte(byte)).then_some(name)
    }

    /// A character, or the one that stands for it where none is given.
    fn character(&mut self, default: u8) -> Option<u8> {
        match self.byte()? {
            0 => Some(default),
            given => is_name_byte(given).then_some(given),
        }
    }

    fn unit(&mut self, group: &[&[u8]], needed: bool) -> Option<()> {
        let unit = self.take(3)?;
        holds(group.contains(&unit) || (unit == [0; 3] && !needed))
    }
}
