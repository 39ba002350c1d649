//! A result read through its offsets.

/// The records of a result, each with the bytes that it leads to.
#[derive(Clone, Debug, PartialEq, Eq)]
pub struct Through {
    pub records: Vec<(u16, u16, Vec<u8>)>,
    /// For each record the first that has the same offset.
    pub shared_with: Vec<usize>,
    pub length: usize,
}

fn number(bytes: &[u8], at: usize, width: usize) -> Option<usize> {
    let part = bytes.get(at..at.checked_add(width)?)?;
    Some(part.iter().fold(0, |n, &b| n << 8 | usize::from(b)))
}

/// A result read through its offsets; `None` if a record leads outside or to another format.
pub fn read(table: &[u8]) -> Option<Through> {
    let count = number(table, 2, 2)?;
    let offset = |k: usize| number(table, 8 + 8 * k, 4);
    let mut records = Vec::new();
    for k in 0..count {
        let at = offset(k)?;
        let length = match number(table, at, 2)? {
            4 => number(table, at + 2, 2)?,
            12 => number(table, at + 4, 4)?,
            14 => number(table, at + 2, 4)?,
            _ => return None,
        };
        let bytes = table.get(at..at + length)?.to_vec();
        let [platform, encoding] = [number(table, 4 + 8 * k, 2)?, number(table, 6 + 8 * k, 2)?];
        records.push((platform as u16, encoding as u16, bytes));
    }
    let first = |k| (0..count).find(|&i| offset(i) == offset(k));
    (number(table, 0, 2)? == 0).then_some(())?;
    Some(Through { records, shared_with: (0..count).map(first).collect::<Option<_>>()?, length: table.len() })
}
