//! Records of a script: their framing, and the fields of their bodies.

use std::ops::RangeInclusive;

/// The greatest length of a record that is read; no good script has a longer one.
pub const MAX_LENGTH: u32 = 131_072;

/// A record that cannot be read: the run prints `bad` and ends.
#[derive(Debug)]
pub struct Malformed;

pub struct Record<'a> {
    pub kind: u16,
    pub body: &'a [u8],
}

/// Takes the first record off a script.
pub fn take_record<'a>(script: &mut &'a [u8]) -> Result<Record<'a>, Malformed> {
    take_record_of(2..=MAX_LENGTH, script)
}

/// Takes the first record, of one of these lengths.
pub fn take_record_of<'a>(
    lengths: RangeInclusive<u32>,
    script: &mut &'a [u8],
) -> Result<Record<'a>, Malformed> {
    let length = u32::from_le_bytes(take_array(script)?);
    if !lengths.contains(&length) {
        return Err(Malformed);
    }
    let mut content = take(script, length as usize)?;
    let kind = u16::from_le_bytes(take_array(&mut content)?);
    Ok(Record {
        kind,
        body: content,
    })
}

/// The fields of a body, read from its front.
#[derive(Clone)]
pub struct Fields<'a> {
    rest: &'a [u8],
}

impl<'a> Fields<'a> {
    pub fn of(record: &Record<'a>) -> Self {
        Self { rest: record.body }
    }

    pub fn u32(&mut self) -> Result<u32, Malformed> {
        Ok(u32::from_le_bytes(take_array(&mut self.rest)?))
    }

    /// So many fields.
    pub fn array<const N: usize>(&mut self) -> Result<[u32; N], Malformed> {
        let mut fields = [0; N];
        for field in &mut fields {
            *field = self.u32()?;
        }
        Ok(fields)
    }

    pub fn i32(&mut self) -> Result<i32, Malformed> {
        Ok(i32::from_le_bytes(take_array(&mut self.rest)?))
    }

    pub fn f32(&mut self) -> Result<f32, Malformed> {
        Ok(f32::from_bits(self.u32()?))
    }

    /// A flag that is a whole field.
    pub fn flag(&mut self) -> Result<bool, Malformed> {
        flag(self.u32()?)
    }

    /// A list of flags, one byte each.
    pub fn flags(&mut self, count: u32) -> Result<Vec<bool>, Malformed> {
        let bytes = take(&mut self.rest, count as usize)?;
        bytes.iter().map(|&byte| flag(byte.into())).collect()
    }

    /// A list of binary32 numbers.
    pub fn floats(&mut self, count: u32) -> Result<Vec<f32>, Malformed> {
        let size = (count as usize).checked_mul(4).ok_or(Malformed)?;
        floats_of(take(&mut self.rest, size)?)
    }

    /// Lists of so many binary32 numbers, one after the other.
    pub fn lists<const N: usize>(&mut self, counts: [u32; N]) -> Result<[Vec<f32>; N], Malformed> {
        let mut lists = [const { Vec::new() }; N];
        for (list, count) in lists.iter_mut().zip(counts) {
            *list = self.floats(count)?;
        }
        Ok(lists)
    }

    /// All that remains, as binary32 numbers.
    pub fn floats_to_the_end(self) -> Result<Vec<f32>, Malformed> {
        floats_of(self.rest)
    }

    /// Finds the body at its end: it is not longer than its fields ask.
    pub fn end(self) -> Result<(), Malformed> {
        if self.rest.is_empty() {
            Ok(())
        } else {
            Err(Malformed)
        }
    }
}

/// What a record carries, and the bytes for it.
pub trait Body: Sized {
    fn read(body: Fields<'_>) -> Result<Self, Malformed>;

    /// The body that `read` reads.
    fn body(&self) -> Vec<u8>;
}

/// A body without fields.
impl Body for () {
    fn read(body: Fields<'_>) -> Result<Self, Malformed> {
        body.end()
    }

    fn body(&self) -> Vec<u8> {
        Vec::new()
    }
}

fn floats_of(bytes: &[u8]) -> Result<Vec<f32>, Malformed> {
    match bytes.as_chunks() {
        (words, []) => {
            let bits = words.iter().map(|&word| u32::from_le_bytes(word));
            Ok(bits.map(f32::from_bits).collect())
        }
        _ => Err(Malformed),
    }
}

fn flag(number: u32) -> Result<bool, Malformed> {
    match number {
        0 => Ok(false),
        1 => Ok(true),
        _ => Err(Malformed),
    }
}

/// Fields one after the other.
pub fn field_bytes(fields: &[u32]) -> Vec<u8> {
    fields.iter().flat_map(|f| f.to_le_bytes()).collect()
}

/// Adds lists to a body: how many flags there are and how many numbers in each
/// list, then the flags and the numbers.
pub fn push_lists(body: &mut Vec<u8>, flags: &[bool], lists: &[&[f32]]) {
    push_sizes(body, flags, lists);
    push_entries(body, flags, lists);
}

/// How many flags there are, and how many numbers in each list.
pub fn push_sizes(body: &mut Vec<u8>, flags: &[bool], lists: &[&[f32]]) {
    let sizes = lists.iter().map(|list| list.len());
    for size in [flags.len()].into_iter().chain(sizes) {
        body.extend((size as u32).to_le_bytes());
    }
}

/// The flags, and the numbers of each list.
pub fn push_entries(body: &mut Vec<u8>, flags: &[bool], lists: &[&[f32]]) {
    body.extend(flags.iter().map(|&flag| flag as u8));
    let values = lists.iter().copied().flatten();
    body.extend(values.flat_map(|value| value.to_bits().to_le_bytes()));
}

fn take<'a>(bytes: &mut &'a [u8], count: usize) -> Result<&'a [u8], Malformed> {
    let (front, rest) = bytes.split_at_checked(count).ok_or(Malformed)?;
    *bytes = rest;
    Ok(front)
}

fn take_array<const N: usize>(bytes: &mut &[u8]) -> Result<[u8; N], Malformed> {
    let (front, rest) = bytes.split_first_chunk().ok_or(Malformed)?;
    *bytes = rest;
    Ok(*front)
}
