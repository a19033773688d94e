//! Takes values from the front of lent bytes. Whatever is missing or broken is `None`.

/// Books and text books may not be longer than this.
pub const LONGEST_BOOK: usize = 4_194_304;

pub struct Reader<'a> {
    bytes: &'a [u8],
    place: usize,
}

impl<'a> Reader<'a> {
    pub fn new(bytes: &'a [u8]) -> Self {
        Reader { bytes, place: 0 }
    }

    /// How many bytes were taken so far.
    pub fn place(&self) -> usize {
        self.place
    }

    pub fn at_end(&self) -> bool {
        self.place == self.bytes.len()
    }

    pub fn take(&mut self, count: usize) -> Option<&'a [u8]> {
        let left = &self.bytes[self.place..];
        if count > left.len() {
            return None;
        }
        self.place += count;
        Some(&left[..count])
    }

    pub fn byte(&mut self) -> Option<u8> {
        Some(self.take(1)?[0])
    }

    pub fn array<const N: usize>(&mut self) -> Option<[u8; N]> {
        self.take(N)?.try_into().ok()
    }

    pub fn u16(&mut self) -> Option<u16> {
        Some(u16::from_be_bytes(self.array()?))
    }

    pub fn u32(&mut self) -> Option<u32> {
        Some(u32::from_be_bytes(self.array()?))
    }

    pub fn i32(&mut self) -> Option<i32> {
        Some(i32::from_be_bytes(self.array()?))
    }

    pub fn i64(&mut self) -> Option<i64> {
        Some(i64::from_be_bytes(self.array()?))
    }

    /// A name whose length lies in `shortest..=longest`.
    pub fn name(&mut self, shortest: usize, longest: usize) -> Option<Vec<u8>> {
        let length = usize::from(self.byte()?);
        if length < shortest || length > longest {
            return None;
        }
        let name = self.take(length)?;
        name.iter().all(|&byte| is_name_byte(byte)).then(|| name.to_vec())
    }

    /// A byte that is one of those given.
    pub fn one_of(&mut self, allowed: &[u8]) -> Option<u8> {
        let byte = self.byte()?;
        allowed.contains(&byte).then_some(byte)
    }

    /// A signed number that is at most `bound` on either side of zero.
    pub fn i32_within(&mut self, bound: i32) -> Option<i32> {
        let number = self.i32()?;
        (-bound <= number && number <= bound).then_some(number)
    }
}

pub fn is_name_byte(byte: u8) -> bool {
    (32..=126).contains(&byte) || (160..=255).contains(&byte)
}

/// Reads what books, questions and text books begin with: the length of the whole and the version,
/// which is handed back. The reader then stands behind it.
pub fn begun(bytes: &[u8]) -> Option<(Reader<'_>, u8)> {
    let mut reader = Reader::new(bytes);
    let length = reader.u32()?;
    let version = reader.byte()?;
    (u64::from(length) == bytes.len() as u64).then_some((reader, version))
}

/// The same for books and text books, which have one version only.
pub fn opened(bytes: &[u8]) -> Option<Reader<'_>> {
    let (reader, version) = begun(bytes)?;
    (version == 1).then_some(reader)
}

/// Splits off the front part that begins with its own length; `None` if it is cut.
pub fn split_off(bytes: &[u8]) -> Option<(&[u8], &[u8])> {
    let field: [u8; 4] = bytes.get(..4)?.try_into().ok()?;
    let length = usize::try_from(u32::from_be_bytes(field)).ok()?;
    (length <= bytes.len()).then(|| bytes.split_at(length))
}
