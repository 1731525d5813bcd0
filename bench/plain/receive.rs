//! `receive`: red parts out of recorded datagrams.

use crate::decimal;
use crate::ends::{End, Input, Output};
use crate::hex;
use crate::segment::{self, BLOCK_MAX, Content, Piece, Segment};
use crate::spans::Spans;
use std::collections::HashMap;
use std::collections::hash_map::Entry;
use std::io::Write;

const MOST_SESSIONS: usize = 64;

/// A red part in progress.
#[derive(Default)]
struct Part {
    octets: Vec<u8>,
    came: Spans,
    length: Option<u64>,
}

impl Part {
    /// Takes a piece; false where it can't be one of this red part. The first octet for a place
    /// stays.
    fn take(&mut self, piece: &Piece) -> bool {
        let end = piece.end();
        if self.length.is_some_and(|length| end > length) {
            return false;
        }
        if piece.kind.ends_red() {
            if self.length.is_some_and(|length| end != length) || end < self.came.end() {
                return false;
            }
            self.length = Some(end);
        }
        if self.octets.len() < end as usize {
            self.octets.resize(end as usize, 0);
        }
        self.came.cover(piece.offset, end, |from, to| {
            let (first, last) = (from - piece.offset, to - piece.offset);
            self.octets[from as usize..to as usize]
                .copy_from_slice(&piece.body[first as usize..last as usize]);
        });
        true
    }

    fn is_whole(&self) -> bool {
        self.length.is_some_and(|length| self.came.is_whole(length))
    }
}

/// The red part of each session by originator and number, none once it was handed up.
#[derive(Default)]
struct Sessions {
    parts: HashMap<(u64, u64), Option<Box<Part>>>,
    unfinished: usize,
}

impl Sessions {
    /// Writes what is to be said of a segment, the one on line `number`.
    fn take(&mut self, segment: &Segment, number: u64, output: &mut Output) -> Result<(), End> {
        let name = (segment.originator, segment.session);
        let Content::Piece(piece) = &segment.content else {
            return skip(number, output);
        };
        if !piece.kind.is_red() || piece.service != 1 {
            return skip(number, output);
        }
        let is_bad = piece.body.is_empty() || piece.end() > BLOCK_MAX;
        let session = match self.parts.entry(name) {
            Entry::Occupied(entry) => entry.into_mut(),
            Entry::Vacant(_) if is_bad => return bad_bounds(number, output),
            Entry::Vacant(entry) => {
                self.unfinished += 1;
                entry.insert(Some(Box::default()))
            }
        };
        let Some(part) = session else {
            return skip(number, output);
        };
        if is_bad || !part.take(piece) {
            return bad_bounds(number, output);
        }
        if part.is_whole() {
            let text = &mut output.text;
            text.extend(b"up ");
            decimal::write(name.0, text);
            text.push(b' ');
            decimal::write(name.1, text);
            text.push(b' ');
            hex::write(&part.octets, text);
            *session = None;
            self.unfinished -= 1;
            return output.end_line();
        }
        if self.unfinished > MOST_SESSIONS {
            let limit =
                format!("line {number} leaves more than {MOST_SESSIONS} sessions unfinished");
            return Err(End::Limit(limit));
        }
        Ok(())
    }
}

fn bad_bounds(number: u64, output: &mut Output) -> Result<(), End> {
    let _ = write!(output.text, "note {number} BadBounds");
    output.end_line()
}

fn skip(number: u64, output: &mut Output) -> Result<(), End> {
    output.text.extend(b"skip ");
    decimal::write(number, &mut output.text);
    output.end_line()
}

pub fn run(input: &mut Input, output: &mut Output, keep_going: bool) -> Result<(), End> {
    let mut sessions = Sessions::default();
    let mut datagram = Vec::new();
    let mut is_refused = false;
    while let Some((line, number)) = input.line(output)? {
        if !hex::read(line, &mut datagram) {
            let _ = write!(output.text, "refused line {number} Hex");
        } else {
            match segment::decode(&datagram) {
                Ok(segment) => {
                    sessions.take(&segment, number, output)?;
                    continue;
                }
                Err(fault) => {
                    let (at, cause) = (fault.at, fault.cause);
                    let _ = write!(output.text, "refused line {number} {at} {cause:?}");
                }
            }
        }
        output.end_line()?;
        if !keep_going {
            return Err(End::Refused);
        }
        is_refused = true;
    }
    if is_refused {
        Err(End::Refused)
    } else {
        Ok(())
    }
}
