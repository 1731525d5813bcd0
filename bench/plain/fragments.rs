//! Cutting a record into pieces, and joining them again.

use crate::bundle6::Fragment;
use crate::bundles;
use crate::endpoint::Endpoint;
use crate::record::{Content, Ext, FRAGMENT, MUST_NOT, Record, Refused};
use crate::spans::Spans;
use std::collections::HashMap;
use std::collections::hash_map::Entry;

const MOST_TOTAL: u64 = 4_194_304;
const MOST_NAMES: usize = 64;
/// An extension block with this flag stands in each piece.
const IN_EACH: u64 = 1;

/// Gives each piece of a record to a call; a piece has at most `size` octets of payload.
pub fn cut<Fault>(
    record: &mut Record,
    size: usize,
    mut give: impl FnMut(&Record) -> Result<(), Fault>,
) -> Result<Option<Refused>, Fault> {
    let payload = match record.content {
        Content::Octets(octets) if octets.len() > size => octets,
        _ => return give(record).map(|()| None),
    };
    if record.flags & MUST_NOT != 0 || record.source == Endpoint::Null {
        return Ok(Some(Refused::MustNot));
    }
    let whole = Fragment {
        offset: 0,
        total: payload.len() as u64,
    };
    let Fragment { mut offset, total } = record.fragment.unwrap_or(whole);
    record.flags |= FRAGMENT;
    for (index, piece) in payload.chunks(size).enumerate() {
        if index == 1 {
            keep_exts(record, |ext| ext.flags() & IN_EACH != 0);
        }
        record.fragment = Some(Fragment { offset, total });
        record.content = Content::Octets(piece);
        give(record)?;
        offset += piece.len() as u64;
    }
    Ok(None)
}

/// Keeps some extension blocks, and counts those after the payload anew.
pub fn keep_exts(record: &mut Record, is_kept: impl Fn(&Ext) -> bool) {
    let before = record.exts.len() - record.extra6.after as usize;
    record.extra6.after = record.exts[before..]
        .iter()
        .filter(|ext| is_kept(ext))
        .count() as u64;
    record.exts.retain(is_kept);
}

/// What came of one bundle.
struct Join {
    octets: Vec<u8>,
    came: Spans,
    /// The octets of the first fragment that came from place 0.
    first: Vec<u8>,
}

/// A source, milliseconds and a sequence number.
type Name = (Vec<u8>, u64, u64);

#[derive(Default)]
pub struct Joiner {
    open: HashMap<Name, Join>,
}

pub enum Joined {
    Waiting,
    Repeat,
    NotFragment,
    TooLarge,
    TotalDiffers,
    Full,
    Whole(Whole),
}

impl Joined {
    pub fn word(&self) -> &'static str {
        match self {
            Joined::Waiting => "Waiting",
            Joined::Repeat => "Repeat",
            Joined::NotFragment => "NotFragment",
            Joined::TooLarge => "TooLarge",
            Joined::TotalDiffers => "TotalDiffers",
            Joined::Full => "Full",
            Joined::Whole(_) => "Whole",
        }
    }
}

/// All octets of a bundle's payload, and the fragment that has its other fields.
pub struct Whole {
    payload: Vec<u8>,
    first: Vec<u8>,
}

impl Joiner {
    /// Adds a record, and the octets of the bundle that it was read from.
    pub fn add(&mut self, record: &Record, bundle: &[u8]) -> Joined {
        let (Some(Fragment { offset, total }), Content::Octets(piece)) =
            (record.fragment, &record.content)
        else {
            return Joined::NotFragment;
        };
        if total > MOST_TOTAL {
            return Joined::TooLarge;
        }
        let mut source = Vec::new();
        record.source.write_text(&mut source);
        let count = self.open.len();
        let (mut entry, is_new) = match self.open.entry((source, record.millis, record.sequence)) {
            Entry::Occupied(entry) => (entry, false),
            Entry::Vacant(_) if count >= MOST_NAMES => return Joined::Full,
            Entry::Vacant(entry) => {
                let octets = vec![0; total as usize];
                let join = Join {
                    octets,
                    came: Spans::default(),
                    first: Vec::new(),
                };
                (entry.insert_entry(join), true)
            }
        };
        let join = entry.get_mut();
        if join.octets.len() as u64 != total {
            return Joined::TotalDiffers;
        }
        if offset == 0 && join.first.is_empty() {
            join.first = bundle.to_vec();
        }
        let mut is_filled = is_new;
        join.came
            .cover(offset, offset + piece.len() as u64, |from, to| {
                let (first, last) = (from - offset, to - offset);
                join.octets[from as usize..to as usize]
                    .copy_from_slice(&piece[first as usize..last as usize]);
                is_filled = true;
            });
        if join.came.is_whole(total) {
            let Join { octets, first, .. } = entry.remove();
            return Joined::Whole(Whole {
                payload: octets,
                first,
            });
        }
        if is_filled {
            Joined::Waiting
        } else {
            Joined::Repeat
        }
    }
}

impl Whole {
    /// Appends the octets of the whole bundle in a version.
    pub fn write(&self, version: u8, out: &mut Vec<u8>) -> Result<(), Refused> {
        let Ok((bundle, _)) = bundles::read(&self.first) else {
            return Err(Refused::BadAdmin);
        };
        let mut record = bundle.record()?;
        record.flags &= !FRAGMENT;
        record.fragment = None;
        record.content = Content::Octets(&self.payload);
        record.write(version, out)
    }
}
