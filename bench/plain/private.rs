//! The bodies of the gateway's own blocks, which carry what the other version can't say.

use crate::bundle6::Block6;
use crate::bundle7::Block7;
use crate::endpoint::Endpoint;
use crate::fields::{Fields, write_sdnv};
use crate::record::{BLOCK_COMMON, COMMON, Ext, Extra6, Extra7, shortest};
use crate::report::write_text;

pub const RESIDUE: u64 = 192;
pub const WRAP: u64 = 193;
const MARK: [u8; 4] = *b"B67G";

/// Whether a block is one of the gateway's own.
pub fn is_marked(kind: u64, body: &[u8]) -> bool {
    matches!(kind, RESIDUE | WRAP) && body.starts_with(&MARK)
}

/// A body that begins with the mark.
fn marked(numbers: &[u64]) -> Vec<u8> {
    let mut body = MARK.to_vec();
    numbers
        .iter()
        .for_each(|number| write_sdnv(*number, &mut body));
    body
}

/// The fields after the mark.
fn fields_of(body: &[u8]) -> Option<Fields<'_>> {
    Some(Fields::new(body.strip_prefix(&MARK)?))
}

fn read_name<'a>(fields: &mut Fields<'a>) -> Option<Endpoint<'a>> {
    let length = shortest(fields)?;
    Endpoint::of_text(fields.many(length).ok()?)
}

pub struct Residue6 {
    pub slack: u64,
    pub extra7: Extra7,
    pub no_time: u8,
}

pub struct Residue7<'a> {
    pub extra6: Extra6<'a>,
    pub rests: [u64; 4],
}

pub fn read_residue6(body: &[u8]) -> Option<Residue6> {
    let mut fields = fields_of(body)?;
    let slack = shortest(&mut fields).filter(|slack| *slack < 1000)?;
    let flags = shortest(&mut fields).filter(|flags| flags & COMMON == 0)?;
    let crc = shortest(&mut fields).filter(|crc| *crc <= 2)? as u8;
    let payload_crc = shortest(&mut fields).filter(|crc| *crc <= 2)? as u8;
    let payload_flags = shortest(&mut fields).filter(|flags| flags & BLOCK_COMMON == 0)?;
    let no_time = shortest(&mut fields).filter(|mask| mask | 0x1d == 0x1d)? as u8;
    let extra7 = Extra7 {
        flags,
        crc,
        payload_crc,
        payload_flags,
    };
    fields.left().is_empty().then_some(Residue6 {
        slack,
        extra7,
        no_time,
    })
}

pub fn write_residue6(slack: u64, extra7: &Extra7, no_time: u8) -> Vec<u8> {
    let Extra7 {
        flags,
        crc,
        payload_crc,
        payload_flags,
    } = *extra7;
    marked(&[
        slack,
        flags,
        crc.into(),
        payload_crc.into(),
        payload_flags,
        no_time.into(),
    ])
}

pub fn read_residue7(body: &[u8]) -> Option<Residue7<'_>> {
    let mut fields = fields_of(body)?;
    let flags = shortest(&mut fields).filter(|flags| flags & (COMMON | 8) == 0)?;
    let custodian = read_name(&mut fields)?;
    let payload_flags = shortest(&mut fields).filter(|flags| flags & (BLOCK_COMMON | 72) == 0)?;
    let after = shortest(&mut fields)?;
    let mut rests = [0; 4];
    for rest in &mut rests {
        *rest = shortest(&mut fields).filter(|rest| *rest < 1_000_000)?;
    }
    let extra6 = Extra6 {
        flags,
        custodian,
        payload_flags,
        after,
    };
    fields
        .left()
        .is_empty()
        .then_some(Residue7 { extra6, rests })
}

pub fn write_residue7(extra6: &Extra6, rests: [u64; 4]) -> Vec<u8> {
    let mut body = marked(&[extra6.flags]);
    write_text(&extra6.custodian, &mut body);
    write_sdnv(extra6.payload_flags, &mut body);
    write_sdnv(extra6.after, &mut body);
    rests.iter().for_each(|rest| write_sdnv(*rest, &mut body));
    body
}

/// The block of version 7 that a wrap of version 6 holds.
pub fn read_wrap6(body: &[u8]) -> Option<Block7<'_>> {
    let mut fields = fields_of(body)?;
    let kind = shortest(&mut fields).filter(|kind| *kind != 1)?;
    let number = shortest(&mut fields).filter(|number| *number >= 2)?;
    let flags = shortest(&mut fields)?;
    let crc = shortest(&mut fields).filter(|crc| *crc <= 2)? as u8;
    let body = fields.left();
    (!is_marked(kind, body)).then_some(Block7 {
        kind,
        number,
        flags,
        crc,
        body,
    })
}

/// The body of the wrap that holds a block in version 6; nothing for a block that is native there.
pub fn write_wrap6(ext: &Ext) -> Vec<u8> {
    let Ext::Seven(block) = ext else {
        return Vec::new();
    };
    let mut body = marked(&[block.kind, block.number, block.flags, block.crc.into()]);
    body.extend(block.body);
    body
}

/// The block of version 6 that a wrap of version 7 holds.
pub fn read_wrap7(body: &[u8]) -> Option<Block6<'_>> {
    let mut fields = fields_of(body)?;
    let kind = shortest(&mut fields).filter(|kind| *kind <= 255 && *kind != 1)? as u8;
    let flags = shortest(&mut fields).filter(|flags| flags & 72 == 0)?;
    let mut refs = Vec::new();
    for _ in 0..shortest(&mut fields)? {
        refs.push(read_name(&mut fields)?);
    }
    let body = fields.left();
    (!is_marked(u64::from(kind), body)).then_some(Block6 {
        kind,
        flags,
        refs,
        body,
    })
}

/// The body of the wrap that holds a block in version 7; nothing for a block that is native there.
pub fn write_wrap7(ext: &Ext) -> Vec<u8> {
    let Ext::Six(block) = ext else {
        return Vec::new();
    };
    let mut body = marked(&[block.kind.into(), block.flags, block.refs.len() as u64]);
    block
        .refs
        .iter()
        .for_each(|name| write_text(name, &mut body));
    body.extend(block.body);
    body
}
