//! What a bundle says in either version: it is read from one and written in one
//! (docs/translation.md).

use crate::bundle6::{self, Block6, Bundle6, Fragment, MOST_BLOCKS, Primary6};
use crate::bundle7::{self, Block7, Bundle7, Primary7};
use crate::endpoint::Endpoint;
use crate::fields::Fields;
use crate::private::{self, RESIDUE, WRAP, is_marked};
use crate::report::{self, Report};

/// Why a valid bundle isn't translated, cut or joined; the first that holds, in this order.
#[derive(Clone, Copy, Debug, PartialEq)]
pub enum Refused {
    CustodyAsked,
    Clockless,
    LifetimeZero,
    TimeTooLarge,
    SequenceTooLarge,
    PayloadRefs,
    AdminFragment,
    CustodySignal,
    CustodyReport,
    AdminUnknown,
    BadAdmin,
    ResidueBad,
    WrapBad,
    TooManyBlocks,
    MustNot,
}

fn refuse(holds: bool, cause: Refused) -> Result<(), Refused> {
    if holds { Err(cause) } else { Ok(()) }
}

pub const FRAGMENT: u64 = 1;
pub const ADMINISTRATIVE: u64 = 2;
pub const MUST_NOT: u64 = 4;
const CUSTODY: u64 = 8;
/// Flags of a bundle, and of a block, that both versions have.
pub const COMMON: u64 = 0x74027;
pub const BLOCK_COMMON: u64 = 0x17;

/// What version 6 says beside the rest; `after` counts the extension blocks after the payload.
#[derive(Clone, PartialEq)]
pub struct Extra6<'a> {
    pub flags: u64,
    pub custodian: Endpoint<'a>,
    pub payload_flags: u64,
    pub after: u64,
}

/// What version 7 says beside the rest.
#[derive(Clone, PartialEq)]
pub struct Extra7 {
    pub flags: u64,
    pub crc: u8,
    pub payload_crc: u8,
    pub payload_flags: u64,
}

const DEFAULT7: Extra7 = Extra7 {
    flags: 0,
    crc: 1,
    payload_crc: 0,
    payload_flags: 0,
};

pub fn default6(destination: &Endpoint) -> Extra6<'static> {
    let flags = if destination.is_singleton() {
        0x90
    } else {
        0x80
    };
    Extra6 {
        flags,
        custodian: Endpoint::Null,
        payload_flags: 0,
        after: 0,
    }
}

/// An extension block, of the version that it is native to.
#[derive(Clone)]
pub enum Ext<'a> {
    Six(Block6<'a>),
    Seven(Block7<'a>),
}

impl Ext<'_> {
    pub fn flags(&self) -> u64 {
        match self {
            Ext::Six(block) => block.flags,
            Ext::Seven(block) => block.flags,
        }
    }
}

#[derive(Clone)]
pub enum Content<'a> {
    Octets(&'a [u8]),
    Report(Report<'a>),
}

/// All that a bundle says. Times are milliseconds since the start of 2000, and the creation is that
/// of version 7.
#[derive(Clone)]
pub struct Record<'a> {
    pub destination: Endpoint<'a>,
    pub source: Endpoint<'a>,
    pub report_to: Endpoint<'a>,
    pub millis: u64,
    pub sequence: u64,
    pub expiry: u128,
    pub flags: u64,
    pub fragment: Option<Fragment>,
    pub payload_flags: u64,
    pub content: Content<'a>,
    pub extra6: Extra6<'a>,
    pub extra7: Extra7,
    pub exts: Vec<Ext<'a>>,
}

impl Record<'_> {
    /// The least whole seconds of version 6 that reach the expiry, and the milliseconds beyond it.
    fn lifetime6(&self) -> (u128, u64) {
        let lasting = self.expiry - u128::from(self.millis - self.millis % 1000);
        let seconds = lasting.div_ceil(1000);
        (seconds, (1000 * seconds - lasting) as u64)
    }

    /// Whether its lifetime is too large for the way back from version 6.
    pub fn is_late(&self) -> bool {
        1000 * self.lifetime6().0 - u128::from(self.millis % 1000) > u128::from(u64::MAX)
    }

    /// Appends the record's bundle in a version.
    pub fn write(&self, version: u8, out: &mut Vec<u8>) -> Result<(), Refused> {
        if version == 6 {
            write6(self, out)
        } else {
            write7(self, out)
        }
    }
}

/// The counterpart in version 7 of a creation in version 6: milliseconds and sequence number.
pub fn new_name(seconds: u64, sequence: u64) -> Option<(u64, u64)> {
    Some((
        seconds.checked_mul(1000)?.checked_add(sequence % 1000)?,
        sequence / 1000,
    ))
}

/// The counterpart in version 6 of a creation in version 7: seconds and sequence number.
pub fn old_name(millis: u64, sequence: u64) -> Option<(u64, u64)> {
    Some((
        millis / 1000,
        sequence.checked_mul(1000)?.checked_add(millis % 1000)?,
    ))
}

/// A number whose spelling is the shortest.
pub fn shortest(fields: &mut Fields) -> Option<u64> {
    let is_long = fields.left().first() == Some(&0x80);
    fields.sdnv().ok().filter(|_| !is_long)
}

/// The body of the residue among extension blocks, if there is one.
fn residue_of<'a>(
    blocks: impl Iterator<Item = (u64, &'a [u8])>,
) -> Result<Option<&'a [u8]>, Refused> {
    let mut residues = blocks.filter(|(kind, body)| *kind == RESIDUE && is_marked(*kind, body));
    let first = residues.next();
    refuse(residues.next().is_some(), Refused::ResidueBad)?;
    Ok(first.map(|(_, body)| body))
}

/// The record of a bundle of version 6.
pub fn from6(bundle: Bundle6) -> Result<Record, Refused> {
    let primary = bundle.primary;
    refuse(primary.flags & CUSTODY != 0, Refused::CustodyAsked)?;
    refuse(primary.seconds == 0, Refused::Clockless)?;
    refuse(primary.lifetime == 0, Refused::LifetimeZero)?;
    let name = new_name(primary.seconds, primary.sequence);
    let (millis, sequence) = name.ok_or(Refused::TimeTooLarge)?;
    let second = u128::from(primary.sequence % 1000);
    let lifetime = 1000 * u128::from(primary.lifetime);
    refuse(
        lifetime - second > u128::from(u64::MAX),
        Refused::TimeTooLarge,
    )?;
    let paid = bundle
        .blocks
        .iter()
        .position(|block| block.kind == 1)
        .unwrap_or_default();
    let payload = &bundle.blocks[paid];
    refuse(!payload.refs.is_empty(), Refused::PayloadRefs)?;
    let mut content = content_of(primary.flags, payload.body, report::read6)?;
    let payload_flags = payload.flags;
    let bodies = bundle
        .blocks
        .iter()
        .map(|block| (u64::from(block.kind), block.body));
    let (mut slack, mut extra7) = (0, DEFAULT7);
    if let Some(body) = residue_of(bodies)? {
        let residue = private::read_residue6(body).ok_or(Refused::ResidueBad)?;
        let is_lasting = u128::from(residue.slack) + second < lifetime;
        let is_timeless = match &mut content {
            Content::Report(report) => report.forget_times(residue.no_time),
            Content::Octets(_) => residue.no_time == 0,
        };
        refuse(!is_lasting || !is_timeless, Refused::ResidueBad)?;
        (slack, extra7) = (residue.slack, residue.extra7);
    }
    let (exts, after) = exts_of6(bundle.blocks)?;
    Ok(Record {
        destination: primary.destination,
        source: primary.source,
        report_to: primary.report_to,
        millis,
        sequence,
        expiry: 1000 * u128::from(primary.seconds) + lifetime - u128::from(slack),
        flags: primary.flags & COMMON,
        fragment: primary.fragment,
        payload_flags: payload_flags & BLOCK_COMMON,
        content,
        extra6: Extra6 {
            flags: primary.flags & !COMMON,
            custodian: primary.custodian,
            payload_flags: payload_flags & !BLOCK_COMMON,
            after,
        },
        extra7,
        exts,
    })
}

/// What a payload is by the flags of its bundle.
fn content_of<'a>(
    flags: u64,
    payload: &'a [u8],
    read_report: fn(&'a [u8]) -> Result<Report<'a>, Refused>,
) -> Result<Content<'a>, Refused> {
    refuse(
        flags & FRAGMENT != 0 && flags & ADMINISTRATIVE != 0,
        Refused::AdminFragment,
    )?;
    if flags & ADMINISTRATIVE == 0 {
        return Ok(Content::Octets(payload));
    }
    Ok(Content::Report(read_report(payload)?))
}

/// The extension blocks that the blocks of version 6 stand for, and how many are after the payload.
fn exts_of6(blocks: Vec<Block6>) -> Result<(Vec<Ext>, u64), Refused> {
    let mut exts = Vec::new();
    let mut before = 0;
    for block in blocks {
        if block.kind == 1 {
            before = exts.len();
        } else if !is_marked(u64::from(block.kind), block.body) {
            exts.push(Ext::Six(block));
        } else if u64::from(block.kind) == WRAP {
            let held = private::read_wrap6(block.body).ok_or(Refused::WrapBad)?;
            let is_alone = exts.iter().all(|ext| match ext {
                Ext::Seven(other) => {
                    other.number != held.number
                        && (other.kind != held.kind || !bundle7::is_known(held.kind))
                }
                Ext::Six(_) => true,
            });
            let is_good = !bundle7::is_known(held.kind) || bundle7::is_body(held.kind, held.body);
            refuse(!is_alone || !is_good, Refused::WrapBad)?;
            exts.push(Ext::Seven(held));
        }
    }
    let after = exts.len() - before;
    Ok((exts, after as u64))
}

/// The record of a bundle of version 7.
pub fn from7(bundle: Bundle7) -> Result<Record, Refused> {
    let Bundle7 {
        primary,
        mut blocks,
    } = bundle;
    refuse(primary.millis < 1000, Refused::Clockless)?;
    refuse(primary.lifetime == 0, Refused::LifetimeZero)?;
    let name = old_name(primary.millis, primary.sequence);
    refuse(name.is_none(), Refused::SequenceTooLarge)?;
    let payload = blocks.pop().ok_or(Refused::BadAdmin)?;
    let mut content = content_of(primary.flags, payload.body, report::read7)?;
    let mut extra6 = default6(&primary.destination);
    if let Some(body) = residue_of(blocks.iter().map(|block| (block.kind, block.body)))? {
        let residue = private::read_residue7(body).ok_or(Refused::ResidueBad)?;
        let is_timed = match &mut content {
            Content::Report(report) => report.take_rests(residue.rests),
            Content::Octets(_) => residue.rests == [0; 4],
        };
        refuse(!is_timed, Refused::ResidueBad)?;
        extra6 = residue.extra6;
    }
    let mut exts = Vec::new();
    for block in blocks {
        if !is_marked(block.kind, block.body) {
            exts.push(Ext::Seven(block));
        } else if block.kind == WRAP {
            exts.push(Ext::Six(
                private::read_wrap7(block.body).ok_or(Refused::WrapBad)?,
            ));
        }
    }
    extra6.after = extra6.after.min(exts.len() as u64);
    Ok(Record {
        destination: primary.destination,
        source: primary.source,
        report_to: primary.report_to,
        millis: primary.millis,
        sequence: primary.sequence,
        expiry: u128::from(primary.millis) + u128::from(primary.lifetime),
        flags: primary.flags & COMMON,
        fragment: primary.fragment,
        payload_flags: payload.flags & BLOCK_COMMON,
        content,
        extra6,
        extra7: Extra7 {
            flags: primary.flags & !COMMON,
            crc: primary.crc,
            payload_crc: payload.crc,
            payload_flags: payload.flags & !BLOCK_COMMON,
        },
        exts,
    })
}

/// Appends the record's bundle in version 6.
fn write6(record: &Record, out: &mut Vec<u8>) -> Result<(), Refused> {
    let (seconds, sequence) = old_name(record.millis, record.sequence).unwrap_or_default();
    let (lifetime, slack) = record.lifetime6();
    let (no_time, report) = match &record.content {
        Content::Report(report) => {
            let name = old_name(report.millis, report.sequence).unwrap_or_default();
            (report.no_time(), report::write6(report, name))
        }
        Content::Octets(_) => (0, Vec::new()),
    };
    let mut residue = Vec::new();
    if record.extra7 != DEFAULT7 || slack != 0 || no_time != 0 {
        residue = private::write_residue6(slack, &record.extra7, no_time);
    }
    refuse(
        record.exts.len() + usize::from(!residue.is_empty()) > MOST_BLOCKS,
        Refused::TooManyBlocks,
    )?;
    let wraps: Vec<Vec<u8>> = record.exts.iter().map(private::write_wrap6).collect();
    let block = |kind, flags, body| Block6 {
        kind,
        flags,
        refs: Vec::new(),
        body,
    };
    let mut blocks = Vec::with_capacity(record.exts.len() + 2);
    if !residue.is_empty() {
        blocks.push(block(RESIDUE as u8, 1, &residue));
    }
    for (ext, wrap) in record.exts.iter().zip(&wraps) {
        blocks.push(match ext {
            Ext::Six(block) => block.clone(),
            Ext::Seven(held) => block(WRAP as u8, held.flags & BLOCK_COMMON, wrap),
        });
    }
    let flags = record.payload_flags | record.extra6.payload_flags;
    let body = match &record.content {
        Content::Report(_) => &report,
        Content::Octets(octets) => *octets,
    };
    blocks.insert(
        blocks.len() - record.extra6.after as usize,
        block(1, flags, body),
    );
    let primary = Primary6 {
        flags: record.flags | record.extra6.flags,
        destination: record.destination,
        source: record.source,
        report_to: record.report_to,
        custodian: record.extra6.custodian,
        seconds,
        sequence,
        lifetime: lifetime as u64,
        fragment: record.fragment,
    };
    bundle6::write(&Bundle6 { primary, blocks }, out);
    Ok(())
}

/// Appends the record's bundle in version 7.
fn write7(record: &Record, out: &mut Vec<u8>) -> Result<(), Refused> {
    let (rests, report) = match &record.content {
        Content::Report(report) => (report.rests, report::write7(report)),
        Content::Octets(_) => ([0; 4], Vec::new()),
    };
    let mut residue = Vec::new();
    if record.extra6 != default6(&record.destination) || rests != [0; 4] {
        residue = private::write_residue7(&record.extra6, rests);
    }
    refuse(
        record.exts.len() + usize::from(!residue.is_empty()) > MOST_BLOCKS,
        Refused::TooManyBlocks,
    )?;
    let wraps: Vec<Vec<u8>> = record.exts.iter().map(private::write_wrap7).collect();
    let is_taken = |number: &u64| {
        let mut exts = record.exts.iter();
        exts.any(|ext| matches!(ext, Ext::Seven(block) if block.number == *number))
    };
    let mut free = (2..).filter(|number| !is_taken(number));
    let mut block = |kind, flags, body| {
        let number = free.next().unwrap_or_default();
        Block7 {
            kind,
            number,
            flags,
            crc: 0,
            body,
        }
    };
    let mut blocks = Vec::with_capacity(record.exts.len() + 2);
    if !residue.is_empty() {
        blocks.push(block(RESIDUE, 1, &residue[..]));
    }
    for (ext, wrap) in record.exts.iter().zip(&wraps) {
        blocks.push(match ext {
            Ext::Seven(block) => block.clone(),
            Ext::Six(held) => block(WRAP, held.flags & BLOCK_COMMON, wrap),
        });
    }
    let body = match &record.content {
        Content::Report(_) => &report,
        Content::Octets(octets) => *octets,
    };
    let flags = record.payload_flags | record.extra7.payload_flags;
    blocks.push(Block7 {
        kind: 1,
        number: 1,
        flags,
        crc: record.extra7.payload_crc,
        body,
    });
    let primary = Primary7 {
        flags: record.flags | record.extra7.flags,
        crc: record.extra7.crc,
        destination: record.destination,
        source: record.source,
        report_to: record.report_to,
        millis: record.millis,
        sequence: record.sequence,
        lifetime: (record.expiry - u128::from(record.millis)) as u64,
        fragment: record.fragment,
    };
    bundle7::write(&Bundle7 { primary, blocks }, out);
    Ok(())
}
