//! Status reports of both versions (RFC 5050, section 6.1.1; RFC 9171, section 6.1).

use crate::endpoint::Endpoint;
use crate::fields::{ARRAY, Cause, Fields, UNSIGNED, write_head, write_sdnv};
use crate::record::{Refused, new_name, old_name, shortest};

/// The bits of received, forwarded, delivered and deleted in version 6.
pub const STATUSES: [u8; 4] = [1, 4, 8, 16];
const NANOS: u64 = 1_000_000;

/// What a report says of a status; a time is in milliseconds.
#[derive(Clone, Copy, PartialEq)]
pub enum Stamp {
    No,
    Yes,
    At(u64),
}

/// What both versions say. A rest is the part of a time below one millisecond, in nanoseconds.
#[derive(Clone, Copy)]
pub struct Report<'a> {
    pub stamps: [Stamp; 4],
    pub rests: [u64; 4],
    pub reason: u8,
    pub source: Endpoint<'a>,
    pub millis: u64,
    pub sequence: u64,
    /// The offset and the length of a fragment.
    pub part: Option<(u64, u64)>,
}

impl Report<'_> {
    /// The bits of the statuses that have no time.
    pub fn no_time(&self) -> u8 {
        let pairs = STATUSES.iter().zip(self.stamps);
        pairs
            .filter(|(_, stamp)| *stamp == Stamp::Yes)
            .map(|(bit, _)| bit)
            .sum()
    }

    /// Takes the times of these statuses for none; false where one has a time.
    pub fn forget_times(&mut self, mask: u8) -> bool {
        for (index, bit) in STATUSES.iter().enumerate() {
            if mask & bit != 0 {
                if self.stamps[index] != Stamp::At(0) || self.rests[index] != 0 {
                    return false;
                }
                self.stamps[index] = Stamp::Yes;
            }
        }
        true
    }

    /// Takes these rests; false where one stands for no time.
    pub fn take_rests(&mut self, rests: [u64; 4]) -> bool {
        self.rests = rests;
        let mut pairs = self.stamps.iter().zip(rests);
        pairs.all(|(stamp, rest)| rest == 0 || matches!(stamp, Stamp::At(_)))
    }
}

/// The report that a body of version 6 is.
pub fn read6(body: &[u8]) -> Result<Report<'_>, Refused> {
    let &[lead, ref rest @ ..] = body else {
        return Err(Refused::BadAdmin);
    };
    match (lead >> 4, rest.first()) {
        (2, _) => Err(Refused::CustodySignal),
        (1, Some(status)) if lead & 15 <= 1 && status & 2 != 0 => Err(Refused::CustodyReport),
        (1, _) => fields6(body).ok_or(Refused::BadAdmin),
        _ => Err(Refused::AdminUnknown),
    }
}

fn fields6(body: &[u8]) -> Option<Report<'_>> {
    let mut fields = Fields::new(body);
    let lead = fields.octet().ok().filter(|lead| lead & 15 <= 1)?;
    let status = fields.octet().ok().filter(|status| *status < 32)?;
    let reason = fields.octet().ok()?;
    let mut part = None;
    if lead & 1 != 0 {
        part = Some((shortest(&mut fields)?, shortest(&mut fields)?));
    }
    let (mut stamps, mut rests) = ([Stamp::No; 4], [0; 4]);
    for (index, bit) in STATUSES.iter().enumerate() {
        if status & bit != 0 {
            let seconds = shortest(&mut fields)?;
            let nanos = shortest(&mut fields).filter(|nanos| *nanos < 1000 * NANOS)?;
            let millis = seconds.checked_mul(1000)?.checked_add(nanos / NANOS)?;
            (stamps[index], rests[index]) = (Stamp::At(millis), nanos % NANOS);
        }
    }
    let (millis, sequence) = new_name(shortest(&mut fields)?, shortest(&mut fields)?)?;
    let length = shortest(&mut fields)?;
    let source = Endpoint::of_text(fields.many(length).ok()?)?;
    let report = Report {
        stamps,
        rests,
        reason,
        source,
        millis,
        sequence,
        part,
    };
    fields.left().is_empty().then_some(report)
}

/// The report that a body of version 7 is.
pub fn read7(body: &[u8]) -> Result<Report<'_>, Refused> {
    let mut fields = Fields::new(body);
    let items = fields.head(ARRAY, Cause::Body);
    match (items, fields.unsigned(Cause::Body)) {
        (Ok(2), Ok(1)) => fields7(&mut fields).ok_or(Refused::BadAdmin),
        (Ok(2), Ok(_)) => Err(Refused::AdminUnknown),
        _ => Err(Refused::BadAdmin),
    }
}

fn fields7<'a>(fields: &mut Fields<'a>) -> Option<Report<'a>> {
    let unsigned = |fields: &mut Fields| fields.unsigned(Cause::Body).ok();
    let array = |fields: &mut Fields| fields.head(ARRAY, Cause::Body).ok();
    let items = array(fields).filter(|items| matches!(items, 4 | 6))?;
    array(fields).filter(|items| *items == 4)?;
    let mut stamps = [Stamp::No; 4];
    for stamp in &mut stamps {
        *stamp = match (array(fields)?, fields.octet().ok()?) {
            (1, 0xf4) => Stamp::No,
            (1, 0xf5) => Stamp::Yes,
            (2, 0xf5) => Stamp::At(unsigned(fields)?),
            _ => return None,
        };
    }
    let reason = u8::try_from(unsigned(fields)?).ok()?;
    let source = Endpoint::read_eid(fields).ok()?;
    array(fields).filter(|items| *items == 2)?;
    let (millis, sequence) = (unsigned(fields)?, unsigned(fields)?);
    old_name(millis, sequence)?;
    let mut part = None;
    if items == 6 {
        part = Some((unsigned(fields)?, unsigned(fields)?));
    }
    let report = Report {
        stamps,
        rests: [0; 4],
        reason,
        source,
        millis,
        sequence,
        part,
    };
    fields.left().is_empty().then_some(report)
}

/// The octets of a report in version 6, whose subject has these seconds and this sequence number.
pub fn write6(report: &Report, (seconds, sequence): (u64, u64)) -> Vec<u8> {
    let mut out = vec![0x10, 0, report.reason];
    if let Some((offset, length)) = report.part {
        out[0] = 0x11;
        write_sdnv(offset, &mut out);
        write_sdnv(length, &mut out);
    }
    for (index, stamp) in report.stamps.iter().enumerate() {
        let (seconds, nanos) = match stamp {
            Stamp::No => continue,
            Stamp::Yes => (0, 0),
            Stamp::At(millis) => (millis / 1000, millis % 1000 * NANOS + report.rests[index]),
        };
        out[1] |= STATUSES[index];
        write_sdnv(seconds, &mut out);
        write_sdnv(nanos, &mut out);
    }
    write_sdnv(seconds, &mut out);
    write_sdnv(sequence, &mut out);
    write_text(&report.source, &mut out);
    out
}

/// The octets of a report in version 7.
pub fn write7(report: &Report) -> Vec<u8> {
    let mut out = vec![0x82, 0x01];
    write_head(ARRAY, if report.part.is_some() { 6 } else { 4 }, &mut out);
    write_head(ARRAY, 4, &mut out);
    for stamp in report.stamps {
        match stamp {
            Stamp::No => out.extend([0x81, 0xf4]),
            Stamp::Yes => out.extend([0x81, 0xf5]),
            Stamp::At(millis) => {
                out.extend([0x82, 0xf5]);
                write_head(UNSIGNED, millis, &mut out);
            }
        }
    }
    write_head(UNSIGNED, u64::from(report.reason), &mut out);
    report.source.write_eid(&mut out);
    write_head(ARRAY, 2, &mut out);
    write_head(UNSIGNED, report.millis, &mut out);
    write_head(UNSIGNED, report.sequence, &mut out);
    if let Some((offset, length)) = report.part {
        write_head(UNSIGNED, offset, &mut out);
        write_head(UNSIGNED, length, &mut out);
    }
    out
}

/// Appends the length and the text of an endpoint.
pub fn write_text(endpoint: &Endpoint, out: &mut Vec<u8>) {
    let mut text = Vec::new();
    endpoint.write_text(&mut text);
    write_sdnv(text.len() as u64, out);
    out.extend(text);
}
