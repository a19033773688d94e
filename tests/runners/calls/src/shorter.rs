//! Shorter inputs made of an input: every run of bytes taken out, as it is and with the lengths and counts around it put right.

/// A head: the length of the whole, and the version.
const HEAD: usize = 5;

/// What is left of the bytes without a run of them, for every run.
fn cuts(bytes: &[u8]) -> Vec<(usize, Vec<u8>)> {
    let runs = (0..bytes.len()).flat_map(|from| (from + 1..=bytes.len()).map(move |to| (from, to)));
    runs.map(|(from, to)| (to - from, [&bytes[..from], &bytes[to..]].concat())).collect()
}

/// The cuts, each also with any one byte lowered by the run's length, as a name's length would be, or by one, as a count.
fn mended_cuts(bytes: &[u8]) -> Vec<Vec<u8>> {
    let mut mended = Vec::new();
    for (size, left) in cuts(bytes) {
        for place in 0..left.len() {
            for less in [size as u8, 1] {
                let mut lowered = left.clone();
                lowered[place] = lowered[place].wrapping_sub(less);
                mended.push(lowered);
            }
        }
        mended.push(left);
    }
    mended
}

/// Bytes with the length of the whole put right, if they are long enough to have one.
fn with_length(mut bytes: Vec<u8>) -> Vec<u8> {
    let length = (bytes.len() as u32).to_be_bytes();
    if let Some(field) = bytes.get_mut(..4) {
        field.copy_from_slice(&length);
    }
    bytes
}

/// The records of a price book; `None` if the bytes do not split into records.
fn records(bytes: &[u8]) -> Option<Vec<&[u8]>> {
    let mut records = Vec::new();
    let mut rest = bytes.get(HEAD..)?;
    while !rest.is_empty() {
        let (length, behind) = rest.split_first_chunk::<2>()?;
        let (record, others) = behind.split_at_checked(usize::from(u16::from_be_bytes(*length)))?;
        records.push(record);
        rest = others;
    }
    Some(records)
}

/// A price book cut within each of its records, whose length is put right.
fn cut_records(book: &[u8], records: &[&[u8]]) -> Vec<Vec<u8>> {
    let mut shorter = Vec::new();
    let mut place = HEAD;
    for record in records {
        let end = place + 2 + record.len();
        for left in mended_cuts(record) {
            let length = (left.len() as u16).to_be_bytes();
            shorter.push([&book[..place], &length, &left, &book[end..]].concat());
        }
        place = end;
    }
    shorter
}

/// Shorter books, questions or files: cut anywhere, and a price book also within its records.
pub fn shorter(bytes: &[u8]) -> Vec<Vec<u8>> {
    let within = match records(bytes) {
        Some(records) => cut_records(bytes, &records),
        None => mended_cuts(bytes),
    };
    let anywhere: Vec<Vec<u8>> = cuts(bytes).into_iter().map(|(_, left)| left).collect();
    let mended: Vec<Vec<u8>> = anywhere.iter().cloned().chain(within).map(with_length).collect();
    [anywhere, mended].concat()
}
