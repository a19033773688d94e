//! What the calls hand back. Field order and layout are those of the C structs.

#[repr(C)]
#[derive(Debug, Default, PartialEq, Eq, Clone, Copy)]
pub struct PriceAnswer {
    pub unit: i64,
    pub total: i64,
    pub lines: u64,
    pub unused: u32,
    pub unused_count: u8,
    pub number: u8,
    pub currency: [u8; 3],
}

/// The price with names that a relation derives.
#[repr(C)]
#[derive(Debug, Default, PartialEq, Eq, Clone, Copy)]
pub struct DerivedAnswer {
    pub unit: i64,
    pub total: i64,
    pub lines: u64,
    /// A byte of the relation, from 1; 0 where the number tells no place.
    pub place: u64,
    pub unused: u32,
    pub unused_count: u8,
    pub number: u8,
    pub currency: [u8; 3],
}

#[repr(C)]
#[derive(Debug, Default, PartialEq, Eq, Clone, Copy)]
pub struct CalendarAnswer {
    pub length: u64,
    pub number: u8,
}

#[repr(C)]
#[derive(Debug, Default, PartialEq, Eq, Clone, Copy)]
pub struct Written {
    pub length: u64,
    pub number: u8,
}

/// What is written, or what is refused and where.
#[repr(C)]
#[derive(Debug, Default, PartialEq, Eq, Clone, Copy)]
pub struct Placed {
    pub length: u64,
    /// A line of the file, or a byte of the book or of the relation, from 1; 0 where the number tells no place.
    pub place: u64,
    pub number: u8,
}

#[repr(C)]
#[derive(Debug, Default, PartialEq, Eq, Clone, Copy)]
pub struct Stretch {
    pub first: u32,
    pub last: u32,
    pub unit: i64,
    pub refusal: u8,
    pub currency: [u8; 3],
}

#[repr(C)]
#[derive(Debug, Default, PartialEq, Eq, Clone, Copy)]
pub struct PackagingAnswer {
    pub gross: i64,
    pub values: [i64; 8],
    pub number: u8,
    pub present: u8,
    pub units: [u8; 9],
}

#[repr(C)]
#[derive(Debug, Default, PartialEq, Eq, Clone, Copy)]
pub struct TextAnswer {
    pub place: u64,
    pub length: u64,
    pub number: u8,
    pub book: u8,
}

impl PriceAnswer {
    pub fn refused(number: u8) -> Self {
        PriceAnswer { number, ..Self::default() }
    }
}

impl DerivedAnswer {
    /// The place is 0 for a number that tells none.
    pub fn refused_at(number: u8, place: u64) -> Self {
        DerivedAnswer { number, place, ..Self::default() }
    }
}

/// A price that was found: no place is told.
impl From<PriceAnswer> for DerivedAnswer {
    fn from(answer: PriceAnswer) -> Self {
        let PriceAnswer { unit, total, lines, unused, unused_count, number, currency } = answer;
        DerivedAnswer { unit, total, lines, place: 0, unused, unused_count, number, currency }
    }
}

impl CalendarAnswer {
    pub fn refused(number: u8) -> Self {
        CalendarAnswer { length: 0, number }
    }
}

impl Written {
    pub fn refused(number: u8) -> Self {
        Written { length: 0, number }
    }
}

impl Placed {
    pub fn refused(number: u8) -> Self {
        Placed::refused_at(number, 0)
    }

    /// A place is the one number beside a refusal that is not zero.
    pub fn refused_at(number: u8, place: u64) -> Self {
        Placed { length: 0, place, number }
    }
}

impl PackagingAnswer {
    pub fn refused(number: u8) -> Self {
        PackagingAnswer { number, ..Self::default() }
    }
}

impl TextAnswer {
    pub fn refused(number: u8) -> Self {
        TextAnswer { number, ..Self::default() }
    }
}
