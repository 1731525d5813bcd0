//! Bundles that stand end to end in the input, and the commands over them.

use crate::bundle6::{self, Bundle6};
use crate::bundle7::{self, Bundle7};
use crate::decimal;
use crate::ends::{End, Input, Output};
use crate::fields::{Cause, Fields, Refusal, must};
use crate::fragments::{self, Joined, Joiner};
use crate::hex;
use crate::record::{self, Record, Refused};
use crate::show;
use std::io::Write;

pub enum Bundle<'a> {
    Six(Bundle6<'a>),
    Seven(Bundle7<'a>),
}

impl<'a> Bundle<'a> {
    pub fn version(&self) -> u8 {
        if matches!(self, Bundle::Six(_)) { 6 } else { 7 }
    }

    pub fn record(self) -> Result<Record<'a>, Refused> {
        match self {
            Bundle::Six(bundle) => record::from6(bundle),
            Bundle::Seven(bundle) => record::from7(bundle),
        }
    }
}

/// The bundle at the front of octets, and how many octets it has.
pub fn read(octets: &[u8]) -> Result<(Bundle<'_>, usize), Refusal> {
    let mut fields = Fields::new(octets);
    let bundle = match octets.first() {
        Some(0x9f) => Bundle::Seven(bundle7::read(&mut fields)?),
        Some(first) => {
            must(*first == 6, 0, Cause::Version)?;
            Bundle::Six(bundle6::read(&mut fields)?)
        }
        None => {
            return Err(Refusal {
                at: 0,
                cause: Cause::Truncated,
                wanted: 1,
            });
        }
    };
    Ok((bundle, fields.at))
}

/// Answers each bundle of the input by a call, which writes lines or says why it refuses it.
fn each(
    input: &mut Input,
    output: &mut Output,
    keep_going: bool,
    mut answer: impl FnMut(Bundle, &[u8], &mut Output) -> Result<Option<Refused>, End>,
) -> Result<(), End> {
    let (mut number, mut is_refused) = (0, false);
    while input.read_until(1, output)? {
        let Refusal { at, cause, wanted } = match read(input.rest()) {
            Ok((bundle, length)) => {
                number += 1;
                if let Some(cause) = answer(bundle, &input.rest()[..length], output)? {
                    let _ = write!(output.text, "refused {number} {cause:?}");
                    output.end_line()?;
                    is_refused = true;
                    if !keep_going {
                        return Err(End::Refused);
                    }
                }
                input.pass(length);
                continue;
            }
            Err(refusal) => refusal,
        };
        if cause == Cause::Truncated {
            if input.read_until(wanted, output)? {
                continue;
            }
            if input.is_too_large() {
                break;
            }
        }
        let _ = write!(
            output.text,
            "refused {} {} {cause:?}",
            number + 1,
            input.place() + at
        );
        output.end_line()?;
        return Err(End::Refused);
    }
    if input.is_too_large() {
        return Err(End::too_large());
    }
    if is_refused {
        Err(End::Refused)
    } else {
        Ok(())
    }
}

/// `check`: the version and the size of each bundle.
pub fn check(input: &mut Input, output: &mut Output) -> Result<(), End> {
    each(input, output, false, |bundle, octets, output| {
        decimal::write(u64::from(bundle.version()), &mut output.text);
        output.text.push(b' ');
        decimal::write(octets.len() as u64, &mut output.text);
        output.end_line()?;
        Ok(None)
    })
}

/// `show`: the values of each bundle as JSON.
pub fn show(input: &mut Input, output: &mut Output) -> Result<(), End> {
    each(input, output, false, |bundle, _, output| {
        match bundle {
            Bundle::Six(bundle) => show::write6(&bundle, &mut output.text),
            Bundle::Seven(bundle) => show::write7(&bundle, &mut output.text),
        }
        output.end_line()?;
        Ok(None)
    })
}

/// `convert`: each bundle in the other version, in hex.
pub fn convert(input: &mut Input, output: &mut Output, keep_going: bool) -> Result<(), End> {
    let mut octets = Vec::new();
    each(input, output, keep_going, |bundle, _, output| {
        octets.clear();
        let other = 13 - bundle.version();
        if let Err(cause) = bundle
            .record()
            .and_then(|record| record.write(other, &mut octets))
        {
            return Ok(Some(cause));
        }
        hex::write(&octets, &mut output.text);
        output.end_line()?;
        Ok(None)
    })
}

/// `cut`: the pieces of each bundle in its own version, in hex.
pub fn cut(
    input: &mut Input,
    output: &mut Output,
    keep_going: bool,
    size: usize,
) -> Result<(), End> {
    let mut octets = Vec::new();
    each(input, output, keep_going, |bundle, _, output| {
        let version = bundle.version();
        let mut record = match bundle.record() {
            Ok(record) => record,
            Err(cause) => return Ok(Some(cause)),
        };
        fragments::cut(&mut record, size, |piece| {
            octets.clear();
            // A piece has no more blocks than its bundle, and so is never refused.
            let _ = piece.write(version, &mut octets);
            hex::write(&octets, &mut output.text);
            output.end_line()
        })
    })
}

/// `join`: what becomes of each fragment, and the whole that it completes, in hex.
pub fn join(input: &mut Input, output: &mut Output, keep_going: bool) -> Result<(), End> {
    let mut joiner = Joiner::default();
    let mut octets = Vec::new();
    each(input, output, keep_going, |bundle, text, output| {
        let version = bundle.version();
        let record = match bundle.record() {
            Ok(record) => record,
            Err(cause) => return Ok(Some(cause)),
        };
        let joined = joiner.add(&record, text);
        if let Joined::Whole(whole) = &joined {
            octets.clear();
            if let Err(cause) = whole.write(version, &mut octets) {
                return Ok(Some(cause));
            }
            output.text.extend(b"Whole ");
            hex::write(&octets, &mut output.text);
        } else {
            output.text.extend(joined.word().as_bytes());
        }
        output.end_line()?;
        Ok(None)
    })
}
