//! LTP segments (RFC 5326, section 3).

use crate::fields::{Cause, Fields, Refusal, must, write_sdnv};

pub const BLOCK_MAX: u64 = 4_194_304;

// Types of segments beside pieces.
pub const REPORT: u8 = 8;
pub const REPORT_ACK: u8 = 9;
pub const SENDER_CANCEL: u8 = 12;
pub const SENDER_CANCEL_ACK: u8 = 13;
pub const RECEIVER_CANCEL: u8 = 14;
pub const RECEIVER_CANCEL_ACK: u8 = 15;

/// A segment without its extensions.
pub struct Segment<'a> {
    pub originator: u64,
    pub session: u64,
    pub content: Content<'a>,
}

pub enum Content<'a> {
    Piece(Piece<'a>),
    Report(Report),
    ReportAck { serial: u64 },
    SenderCancel { reason: u8 },
    SenderCancelAck,
    ReceiverCancel { reason: u8 },
    ReceiverCancelAck,
}

/// A piece of a block.
pub struct Piece<'a> {
    pub kind: PieceKind,
    pub service: u64,
    pub offset: u64,
    /// The serial of the checkpoint, 0 where it is none.
    pub checkpoint: u64,
    pub body: &'a [u8],
}

#[derive(Clone, Copy, PartialEq)]
pub enum PieceKind {
    Red = 0,
    RedCheckpoint = 1,
    RedEnd = 2,
    RedEndBlock = 3,
    Green = 4,
    GreenEndBlock = 7,
}

impl PieceKind {
    pub fn is_red(self) -> bool {
        !matches!(self, PieceKind::Green | PieceKind::GreenEndBlock)
    }

    /// Whether it ends the red part.
    pub fn ends_red(self) -> bool {
        matches!(self, PieceKind::RedEnd | PieceKind::RedEndBlock)
    }

    pub fn is_checkpoint(self) -> bool {
        self == PieceKind::RedCheckpoint || self.ends_red()
    }
}

/// A report on what came of a red part; its claims are places of the block.
pub struct Report {
    pub serial: u64,
    pub checkpoint: u64,
    pub upper: u64,
    pub claims: Vec<(u64, u64)>,
}

impl Piece<'_> {
    pub fn end(&self) -> u64 {
        self.offset + self.body.len() as u64
    }
}

/// The segment that a datagram is.
pub fn decode(datagram: &[u8]) -> Result<Segment<'_>, Refusal> {
    let mut fields = Fields::new(datagram);
    let control = fields.octet()?;
    must(control >> 4 == 0, 0, Cause::Version)?;
    must(!matches!(control, 5 | 6 | 10 | 11), 0, Cause::Kind)?;
    let (originator, session) = fields.sdnv_pair()?;
    let extensions = fields.octet()?;
    pass_extensions(&mut fields, extensions >> 4)?;
    let content = match control {
        0 => Content::Piece(piece(&mut fields, PieceKind::Red)?),
        1 => Content::Piece(piece(&mut fields, PieceKind::RedCheckpoint)?),
        2 => Content::Piece(piece(&mut fields, PieceKind::RedEnd)?),
        3 => Content::Piece(piece(&mut fields, PieceKind::RedEndBlock)?),
        4 => Content::Piece(piece(&mut fields, PieceKind::Green)?),
        7 => Content::Piece(piece(&mut fields, PieceKind::GreenEndBlock)?),
        8 => Content::Report(report(&mut fields)?),
        9 => Content::ReportAck {
            serial: fields.sdnv()?,
        },
        12 => Content::SenderCancel {
            reason: fields.octet()?,
        },
        13 => Content::SenderCancelAck,
        14 => Content::ReceiverCancel {
            reason: fields.octet()?,
        },
        _ => Content::ReceiverCancelAck,
    };
    pass_extensions(&mut fields, extensions & 15)?;
    must(fields.left().is_empty(), fields.at, Cause::Trailing)?;
    Ok(Segment {
        originator,
        session,
        content,
    })
}

fn pass_extensions(fields: &mut Fields, count: u8) -> Result<(), Refusal> {
    for _ in 0..count {
        fields.octet()?;
        let length = fields.sdnv()?;
        fields.many(length)?;
    }
    Ok(())
}

fn piece<'a>(fields: &mut Fields<'a>, kind: PieceKind) -> Result<Piece<'a>, Refusal> {
    let (service, offset) = fields.sdnv_pair()?;
    let at = fields.at;
    let length = fields.sdnv()?;
    must(offset.checked_add(length).is_some(), at, Cause::Range)?;
    let mut checkpoint = 0;
    if kind.is_checkpoint() {
        let at = fields.at;
        checkpoint = fields.sdnv()?;
        must(checkpoint != 0, at, Cause::Serial)?;
        fields.sdnv()?;
    }
    Ok(Piece {
        kind,
        service,
        offset,
        checkpoint,
        body: fields.many(length)?,
    })
}

fn report(fields: &mut Fields) -> Result<Report, Refusal> {
    let at = fields.at;
    let serial = fields.sdnv()?;
    must(serial != 0, at, Cause::Serial)?;
    let (checkpoint, upper) = fields.sdnv_pair()?;
    let at = fields.at;
    let lower = fields.sdnv()?;
    must(lower < upper, at, Cause::Bounds)?;
    let mut claims = Vec::new();
    let mut end = 0;
    for _ in 0..fields.sdnv()? {
        let offset = fields.sdnv()?;
        let at = fields.at;
        let length = fields.sdnv()?;
        let stop = offset
            .checked_add(length)
            .filter(|stop| *stop <= upper - lower);
        let stop = stop.filter(|_| length >= 1 && offset >= end);
        must(stop.is_some(), at, Cause::Claim)?;
        end = offset + length;
        claims.push((lower + offset, lower + end));
    }
    Ok(Report {
        serial,
        checkpoint,
        upper,
        claims,
    })
}

/// The octets of a segment without extensions: numbers and octets are its content.
pub fn write(kind: u8, originator: u64, session: u64, numbers: &[u64], body: &[u8]) -> Vec<u8> {
    let mut out = Vec::with_capacity(24 + 3 * numbers.len() + body.len());
    out.push(kind);
    write_sdnv(originator, &mut out);
    write_sdnv(session, &mut out);
    out.push(0);
    numbers
        .iter()
        .for_each(|number| write_sdnv(*number, &mut out));
    out.extend(body);
    out
}
