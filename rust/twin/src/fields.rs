//! The 39 fields of a record.

/// Fields of a record.
pub const FIELDS: usize = 39;

/// A record split at its semicolons: field 1 first.
pub type Fields<'a> = [&'a [u8]; FIELDS];

/// The fields of a record with 38 semicolons.
#[inline]
pub fn split(record: &[u8]) -> Option<Fields<'_>> {
    let mut fields = [&record[..0]; FIELDS];
    let mut count = 0;
    let mut start = 0;
    for (at, &byte) in record.iter().enumerate() {
        if byte == b';' {
            *fields.get_mut(count)? = &record[start..at];
            count += 1;
            start = at + 1;
        }
    }
    fields[FIELDS - 1] = &record[start..];
    (count == FIELDS - 1).then_some(fields)
}

/// The field view: field `n` of a record as a part of it, the empty part at its start for a
/// number outside 1 to 39 or a record without 38 semicolons.
pub fn field(record: &[u8], n: usize) -> &[u8] {
    match split(record) {
        Some(fields) if (1..=FIELDS).contains(&n) => fields[n - 1],
        _ => &record[..0],
    }
}
