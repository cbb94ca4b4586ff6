use std::collections::{HashMap, HashSet};

use inputs::SeededRng;

use crate::Call;

/// One record: the tag of its call, then its fields, each behind its length in
/// two bytes, most significant first.
#[derive(Clone, Debug, PartialEq, Eq, Hash)]
pub struct Record {
    bytes: Vec<u8>,
}

impl Record {
    pub fn of(call: Call) -> Self {
        let bytes = vec![call.tag()];
        Self { bytes }
    }

    pub fn field(mut self, content: &[u8]) -> Self {
        let length = u16::try_from(content.len()).expect("a field is short");
        self.bytes.extend_from_slice(&length.to_be_bytes());
        self.bytes.extend_from_slice(content);
        self
    }

    /// A field of one byte.
    pub fn number(self, number: usize) -> Self {
        self.field(&[u8::try_from(number).expect("recorded numbers are below 256")])
    }

    pub fn bytes(&self) -> &[u8] {
        &self.bytes
    }
}

/// What a buffer holds before the call.
pub fn pattern(length: usize) -> Vec<u8> {
    (0..length).map(|place| (0xA0 + place) as u8).collect()
}

/// Different records of each kind, up to so many; a kind that is met less often
/// gives fewer.
pub fn of_each_kind(
    rng: &mut SeededRng,
    draws: usize,
    most: usize,
    draw: impl Fn(&mut SeededRng) -> Option<(u8, Record)>,
) -> Vec<Record> {
    let mut taken: HashMap<u8, usize> = HashMap::new();
    let mut seen = HashSet::new();
    let mut records = Vec::new();
    for (kind, record) in (0..draws).filter_map(|_| draw(rng)) {
        let taken = taken.entry(kind).or_default();
        if *taken < most && seen.insert(record.clone()) {
            *taken += 1;
            records.push(record);
        }
    }
    records
}

/// A record that was read back.
pub struct Read<'a> {
    pub call: Call,
    pub fields: Vec<&'a [u8]>,
}

/// Takes the first record off the list.
pub fn read<'a>(list: &mut &'a [u8]) -> Option<Read<'a>> {
    let (&tag, rest) = list.split_first()?;
    *list = rest;
    let call = Call::ALL.into_iter().find(|call| call.tag() == tag)?;
    let fields = (0..call.fields())
        .map(|_| field(list))
        .collect::<Option<_>>()?;
    Some(Read { call, fields })
}

fn field<'a>(list: &mut &'a [u8]) -> Option<&'a [u8]> {
    let (&length, rest) = list.split_first_chunk()?;
    let (field, rest) = rest.split_at_checked(u16::from_be_bytes(length).into())?;
    *list = rest;
    Some(field)
}
