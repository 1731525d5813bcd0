//! Bundles of version 7 (RFC 9171, sections 4.1 to 4.4).

use crate::bundle6::{Fragment, MOST_BLOCKS};
use crate::crc;
use crate::endpoint::Endpoint;
use crate::fields::{ARRAY, BYTES, Cause, Fields, Refusal, UNSIGNED, must, write_head};

pub const PREVIOUS_NODE: u64 = 6;
const AGE: u64 = 7;
pub const HOP_COUNT: u64 = 10;

pub struct Primary7<'a> {
    pub flags: u64,
    pub crc: u8,
    pub destination: Endpoint<'a>,
    pub source: Endpoint<'a>,
    pub report_to: Endpoint<'a>,
    pub millis: u64,
    pub sequence: u64,
    pub lifetime: u64,
    pub fragment: Option<Fragment>,
}

#[derive(Clone)]
pub struct Block7<'a> {
    pub kind: u64,
    pub number: u64,
    pub flags: u64,
    pub crc: u8,
    pub body: &'a [u8],
}

/// A bundle; the last of its blocks is the payload.
pub struct Bundle7<'a> {
    pub primary: Primary7<'a>,
    pub blocks: Vec<Block7<'a>>,
}

impl<'a> Bundle7<'a> {
    pub fn payload(&self) -> &Block7<'a> {
        &self.blocks[self.blocks.len() - 1]
    }
}

/// A type of block that stands in a bundle once, with a body of its own form.
pub fn is_known(kind: u64) -> bool {
    matches!(kind, PREVIOUS_NODE | AGE | HOP_COUNT)
}

/// The limit and the count of a hop count.
pub fn read_hops(body: &[u8]) -> Option<(u64, u64)> {
    let mut fields = Fields::new(body);
    let items = fields.head(ARRAY, Cause::Body).ok()?;
    let limit = fields.unsigned(Cause::Body).ok()?;
    let count = fields.unsigned(Cause::Body).ok()?;
    let is_one = items == 2 && (1..=255).contains(&limit) && fields.left().is_empty();
    is_one.then_some((limit, count))
}

/// Whether a body of one of these types is as it should be.
pub fn is_body(kind: u64, body: &[u8]) -> bool {
    let mut fields = Fields::new(body);
    match kind {
        PREVIOUS_NODE => Endpoint::read_eid(&mut fields).is_ok() && fields.left().is_empty(),
        AGE => fields.unsigned(Cause::Body).is_ok() && fields.left().is_empty(),
        _ => read_hops(body).is_some(),
    }
}

pub fn read<'a>(fields: &mut Fields<'a>) -> Result<Bundle7<'a>, Refusal> {
    let at = fields.at;
    must(fields.octet()? == 0x9f, at, Cause::Start)?;
    let primary = read_primary(fields)?;
    let mut blocks: Vec<Block7> = Vec::new();
    loop {
        let block = read_block(fields, &primary, &blocks)?;
        let is_last = block.kind == 1;
        blocks.push(block);
        if is_last {
            break;
        }
    }
    let at = fields.at;
    must(fields.octet()? == 0xff, at, Cause::Break)?;
    Ok(Bundle7 { primary, blocks })
}

fn read_primary<'a>(fields: &mut Fields<'a>) -> Result<Primary7<'a>, Refusal> {
    let start = fields.at;
    let items = fields.head(ARRAY, Cause::Head)?;
    must((8..=11).contains(&items), start, Cause::Head)?;
    let at = fields.at;
    must(fields.unsigned(Cause::Version)? == 7, at, Cause::Version)?;
    let flags = fields.unsigned(Cause::Number)?;
    let crc = read_crc_type(fields, items, 8 + 2 * (flags & 1))?;
    let destination = Endpoint::read_eid(fields)?;
    let source = Endpoint::read_eid(fields)?;
    let report_to = Endpoint::read_eid(fields)?;
    let at = fields.at;
    must(
        fields.head(ARRAY, Cause::Timestamp)? == 2,
        at,
        Cause::Timestamp,
    )?;
    let millis = fields.unsigned(Cause::Number)?;
    let sequence = fields.unsigned(Cause::Number)?;
    let lifetime = fields.unsigned(Cause::Number)?;
    let mut fragment = None;
    if flags & 1 != 0 {
        let offset = fields.unsigned(Cause::Number)?;
        fragment = Some(Fragment {
            offset,
            total: fields.unsigned(Cause::Number)?,
        });
    }
    read_crc(fields, start, crc)?;
    Ok(Primary7 {
        flags,
        crc,
        destination,
        source,
        report_to,
        millis,
        sequence,
        lifetime,
        fragment,
    })
}

/// Reads the type of a block's CRC; with one the block has an item more than without.
fn read_crc_type(fields: &mut Fields, items: u64, without: u64) -> Result<u8, Refusal> {
    let at = fields.at;
    let crc = fields.unsigned(Cause::CrcType)?;
    must(crc <= 2, at, Cause::CrcType)?;
    must(items == without + u64::from(crc != 0), at, Cause::ItemCount)?;
    Ok(crc as u8)
}

/// Reads the CRC of the block that begins at `start`.
fn read_crc(fields: &mut Fields, start: usize, kind: u8) -> Result<(), Refusal> {
    if kind == 0 {
        return Ok(());
    }
    let size = 2 * u64::from(kind);
    let at = fields.at;
    must(fields.head(BYTES, Cause::Crc)? == size, at, Cause::Crc)?;
    let (at, block) = (fields.at, fields.since(start));
    let found = fields.many(size)?;
    must(
        crc::of_block(kind, block).starts_with(found),
        at,
        Cause::Crc,
    )
}

fn read_block<'a>(
    fields: &mut Fields<'a>,
    primary: &Primary7,
    earlier: &[Block7],
) -> Result<Block7<'a>, Refusal> {
    let start = fields.at;
    let items = fields.head(ARRAY, Cause::BlockHead)?;
    must(matches!(items, 5 | 6), start, Cause::BlockHead)?;
    let at = fields.at;
    let kind = fields.unsigned(Cause::Number)?;
    must(
        kind == 1 || earlier.len() < MOST_BLOCKS,
        at,
        Cause::TooManyBlocks,
    )?;
    let is_first = earlier.iter().all(|block| block.kind != kind);
    must(!is_known(kind) || is_first, at, Cause::Repeated)?;
    let at = fields.at;
    let number = fields.unsigned(Cause::Number)?;
    let is_new = number >= 2 && earlier.iter().all(|block| block.number != number);
    must(
        if kind == 1 { number == 1 } else { is_new },
        at,
        Cause::BlockNumber,
    )?;
    let flags = fields.unsigned(Cause::Number)?;
    let crc = read_crc_type(fields, items, 5)?;
    let at = fields.at;
    let length = fields.head(BYTES, Cause::Body)?;
    let fits = kind != 1
        || primary
            .fragment
            .is_none_or(|fragment| fragment.holds(length));
    must(fits, at, Cause::FragmentRange)?;
    let at = fields.at;
    let body = fields.many(length)?;
    must(
        !is_known(kind) || is_body(kind, body),
        at,
        Cause::ExtensionBody,
    )?;
    read_crc(fields, start, crc)?;
    Ok(Block7 {
        kind,
        number,
        flags,
        crc,
        body,
    })
}

/// Appends a bundle's octets.
pub fn write(bundle: &Bundle7, out: &mut Vec<u8>) {
    let primary = &bundle.primary;
    out.push(0x9f);
    let start = out.len();
    let items = 8 + 2 * (primary.flags & 1) + u64::from(primary.crc != 0);
    write_head(ARRAY, items, out);
    for number in [7, primary.flags, u64::from(primary.crc)] {
        write_head(UNSIGNED, number, out);
    }
    primary.destination.write_eid(out);
    primary.source.write_eid(out);
    primary.report_to.write_eid(out);
    write_head(ARRAY, 2, out);
    for number in [primary.millis, primary.sequence, primary.lifetime] {
        write_head(UNSIGNED, number, out);
    }
    if let Some(Fragment { offset, total }) = primary.fragment {
        write_head(UNSIGNED, offset, out);
        write_head(UNSIGNED, total, out);
    }
    write_crc(start, primary.crc, out);
    bundle
        .blocks
        .iter()
        .for_each(|block| write_block(block, out));
    out.push(0xff);
}

fn write_block(block: &Block7, out: &mut Vec<u8>) {
    let start = out.len();
    write_head(ARRAY, if block.crc == 0 { 5 } else { 6 }, out);
    for number in [block.kind, block.number, block.flags, u64::from(block.crc)] {
        write_head(UNSIGNED, number, out);
    }
    write_head(BYTES, block.body.len() as u64, out);
    out.extend(block.body);
    write_crc(start, block.crc, out);
}

/// Appends the CRC of the block that begins at `start`.
fn write_crc(start: usize, kind: u8, out: &mut Vec<u8>) {
    if kind != 0 {
        let size = 2 * usize::from(kind);
        write_head(BYTES, size as u64, out);
        let crc = crc::of_block(kind, &out[start..]);
        out.extend(&crc[..size]);
    }
}
