//! What the size lookup is given, and what `lookups` prints of it.

use crate::answers::lookup;
use crate::wrong::Wrong;
use std::fmt::Write;

/// The most bytes that `lookups` reads.
pub const MOST_LISTS: usize = 131_072;
const SIZES_LOOKED_UP: [u32; 7] = [0, 3, 4, 5, 6, 7, 8];

/// A record of `lookups`: two lists, each its number of words and then these, all in eight bytes, high byte first.
pub struct Lists {
    pub first: Vec<u64>,
    pub second: Vec<u64>,
}

impl Lists {
    pub fn bytes(&self) -> Vec<u8> {
        let with_length = |list: &Vec<u64>| [&[list.len() as u64], &list[..]].concat();
        [with_length(&self.first), with_length(&self.second)]
            .concat()
            .into_iter()
            .flat_map(u64::to_be_bytes)
            .collect()
    }

    /// A line for each size that is looked up: `lookup`, the size in decimal, and the words found in lower-case hex.
    pub fn lines(&self, wrong: Option<Wrong>) -> String {
        let mut text = String::new();
        for size in SIZES_LOOKED_UP {
            let _ = write!(text, "lookup {size}");
            for word in self.found(size, wrong) {
                let _ = write!(text, " {word:x}");
            }
            text.push('\n');
        }
        text
    }

    fn found(&self, size: u32, wrong: Option<Wrong>) -> &[u64] {
        let found = lookup(&self.first, &self.second, size);
        match wrong {
            Some(Wrong::LookupFirstOnly) => lookup(&self.first, &[], size),
            Some(Wrong::LookupOneWord) => &found[..found.len().min(1)],
            _ => found,
        }
    }
}

/// The whole records of an input of `lookups`, and whether something else follows them. Bytes that make no whole word are left
/// out.
pub fn lists_of(input: &[u8]) -> (Vec<Lists>, bool) {
    let words: Vec<u64> = input
        .chunks_exact(8)
        .map(|eight| {
            eight
                .iter()
                .fold(0, |word, &byte| word << 8 | u64::from(byte))
        })
        .collect();
    let mut records = Vec::new();
    let mut rest = &words[..];
    while !rest.is_empty() {
        let Some((lists, after)) = take_lists(rest) else {
            return (records, true);
        };
        records.push(lists);
        rest = after;
    }
    (records, false)
}

fn take_lists(words: &[u64]) -> Option<(Lists, &[u64])> {
    let (first, rest) = take_list(words)?;
    let (second, rest) = take_list(rest)?;
    let lists = Lists {
        first: first.to_vec(),
        second: second.to_vec(),
    };
    Some((lists, rest))
}

fn take_list(words: &[u64]) -> Option<(&[u64], &[u64])> {
    let (&length, rest) = words.split_first()?;
    (length <= rest.len() as u64).then(|| rest.split_at(length as usize))
}
