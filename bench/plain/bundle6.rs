//! Bundles of version 6 (RFC 5050, sections 4.5 and 4.6; RFC 6260).

use crate::endpoint::Endpoint;
use crate::fields::{Cause, Fields, Refusal, must, write_sdnv};
use std::collections::HashMap;

pub const MOST_BLOCKS: usize = 64;
const LAST: u64 = 8;
const HAS_REFS: u64 = 64;

/// The place of a fragment's payload, and the length of the whole.
#[derive(Clone, Copy)]
pub struct Fragment {
    pub offset: u64,
    pub total: u64,
}

impl Fragment {
    /// Whether a payload of so many octets lies within the whole.
    pub fn holds(&self, length: u64) -> bool {
        self.offset
            .checked_add(length)
            .is_some_and(|end| end <= self.total)
    }
}

pub struct Primary6<'a> {
    pub flags: u64,
    pub destination: Endpoint<'a>,
    pub source: Endpoint<'a>,
    pub report_to: Endpoint<'a>,
    pub custodian: Endpoint<'a>,
    pub seconds: u64,
    pub sequence: u64,
    pub lifetime: u64,
    pub fragment: Option<Fragment>,
}

/// A block; of its flags the marks of the last block and of references are left out.
#[derive(Clone)]
pub struct Block6<'a> {
    pub kind: u8,
    pub flags: u64,
    pub refs: Vec<Endpoint<'a>>,
    pub body: &'a [u8],
}

pub struct Bundle6<'a> {
    pub primary: Primary6<'a>,
    pub blocks: Vec<Block6<'a>>,
}

/// The text at a place of a dictionary.
fn text_at(dictionary: &[u8], place: u64) -> Option<&[u8]> {
    let text = dictionary.get(usize::try_from(place).ok()?..)?;
    Some(&text[..text.iter().position(|octet| *octet == 0)?])
}

/// The endpoint that two numbers name.
fn resolve<'a>(dictionary: &'a [u8], (first, second): (u64, u64)) -> Option<Endpoint<'a>> {
    match (first, second) {
        (0, 0) if dictionary.is_empty() => Some(Endpoint::Null),
        (node, service) if dictionary.is_empty() => Some(Endpoint::Ipn(node, service)),
        _ => Endpoint::of_parts(text_at(dictionary, first)?, text_at(dictionary, second)?),
    }
}

pub fn read<'a>(fields: &mut Fields<'a>) -> Result<Bundle6<'a>, Refusal> {
    let (primary, dictionary) = read_primary(fields)?;
    let mut blocks = Vec::new();
    while !read_block(fields, &primary, dictionary, &mut blocks)? {}
    Ok(Bundle6 { primary, blocks })
}

fn read_primary<'a>(fields: &mut Fields<'a>) -> Result<(Primary6<'a>, &'a [u8]), Refusal> {
    let at = fields.at;
    must(fields.octet()? == 6, at, Cause::Version)?;
    let flags = fields.sdnv()?;
    let length = fields.sdnv()?;
    let start = fields.at;
    let mut pairs = [(0, 0); 4];
    for pair in &mut pairs {
        *pair = fields.sdnv_pair()?;
    }
    let (seconds, sequence) = fields.sdnv_pair()?;
    let lifetime = fields.sdnv()?;
    let size = fields.sdnv()?;
    let at = fields.at;
    let dictionary = fields.many(size)?;
    let mut names = [Endpoint::Null; 4];
    for (name, pair) in names.iter_mut().zip(pairs) {
        let refusal = Refusal {
            at,
            cause: Cause::Names,
            wanted: 0,
        };
        *name = resolve(dictionary, pair).ok_or(refusal)?;
    }
    let mut fragment = None;
    if flags & 1 != 0 {
        let (offset, total) = fields.sdnv_pair()?;
        fragment = Some(Fragment { offset, total });
    }
    must(
        (fields.at - start) as u64 == length,
        fields.at,
        Cause::PrimaryEnd,
    )?;
    let [destination, source, report_to, custodian] = names;
    let primary = Primary6 {
        flags,
        destination,
        source,
        report_to,
        custodian,
        seconds,
        sequence,
        lifetime,
        fragment,
    };
    Ok((primary, dictionary))
}

/// Reads a block, and whether it is the last one.
fn read_block<'a>(
    fields: &mut Fields<'a>,
    primary: &Primary6,
    dictionary: &'a [u8],
    blocks: &mut Vec<Block6<'a>>,
) -> Result<bool, Refusal> {
    let at = fields.at;
    let kind = fields.octet()?;
    let is_paid = blocks.iter().any(|block| block.kind == 1);
    must(kind != 1 || !is_paid, at, Cause::SecondPayload)?;
    let others = blocks.len() - usize::from(is_paid);
    must(kind == 1 || others < MOST_BLOCKS, at, Cause::TooManyBlocks)?;
    let at = fields.at;
    let flags = fields.sdnv()?;
    let is_last = flags & LAST != 0;
    must(!is_last || is_paid || kind == 1, at, Cause::NoPayload)?;
    let mut refs = Vec::new();
    let count = if flags & HAS_REFS != 0 {
        fields.sdnv()?
    } else {
        0
    };
    for _ in 0..count {
        let first = fields.sdnv()?;
        let at = fields.at;
        let second = fields.sdnv()?;
        let refusal = Refusal {
            at,
            cause: Cause::BlockRefs,
            wanted: 0,
        };
        refs.push(resolve(dictionary, (first, second)).ok_or(refusal)?);
    }
    let at = fields.at;
    let length = fields.sdnv()?;
    let fits = kind != 1
        || primary
            .fragment
            .is_none_or(|fragment| fragment.holds(length));
    must(fits, at, Cause::FragmentRange)?;
    let body = fields.many(length)?;
    blocks.push(Block6 {
        kind,
        flags: flags & !(LAST | HAS_REFS),
        refs,
        body,
    });
    Ok(is_last)
}

/// The texts of names, each once, in the order of first use.
#[derive(Default)]
struct Dictionary {
    octets: Vec<u8>,
    places: HashMap<Vec<u8>, u64>,
    is_used: bool,
}

impl Dictionary {
    fn add(&mut self, name: &Endpoint) {
        let mut ssp = Vec::new();
        name.write_ssp(&mut ssp);
        for text in [name.scheme().to_vec(), ssp] {
            self.places.entry(text).or_insert_with_key(|text| {
                let place = self.octets.len() as u64;
                self.octets.extend(text);
                self.octets.push(0);
                place
            });
        }
    }

    fn write_name(&self, name: &Endpoint, out: &mut Vec<u8>) {
        let (first, second) = match name {
            _ if self.is_used => {
                let mut ssp = Vec::new();
                name.write_ssp(&mut ssp);
                (self.places[name.scheme()], self.places[&ssp])
            }
            Endpoint::Ipn(node, service) => (*node, *service),
            _ => (0, 0),
        };
        write_sdnv(first, out);
        write_sdnv(second, out);
    }
}

/// Whether a name is spelled without a dictionary.
fn is_bare(name: &Endpoint) -> bool {
    match name {
        Endpoint::Null => true,
        Endpoint::Ipn(node, service) => (*node, *service) != (0, 0),
        Endpoint::Dtn(_) => false,
    }
}

/// Appends a bundle's canonical octets.
pub fn write(bundle: &Bundle6, out: &mut Vec<u8>) {
    let Bundle6 { primary, blocks } = bundle;
    let Primary6 {
        destination,
        source,
        report_to,
        custodian,
        ..
    } = primary;
    let names = [destination, source, report_to, custodian];
    let all = || {
        names
            .into_iter()
            .chain(blocks.iter().flat_map(|block| &block.refs))
    };
    let mut dictionary = Dictionary::default();
    if !all().all(is_bare) {
        dictionary.is_used = true;
        all().for_each(|name| dictionary.add(name));
    }
    let mut rest = Vec::new();
    names
        .into_iter()
        .for_each(|name| dictionary.write_name(name, &mut rest));
    for number in [primary.seconds, primary.sequence, primary.lifetime] {
        write_sdnv(number, &mut rest);
    }
    write_sdnv(dictionary.octets.len() as u64, &mut rest);
    rest.extend(&dictionary.octets);
    if let Some(Fragment { offset, total }) = primary.fragment {
        write_sdnv(offset, &mut rest);
        write_sdnv(total, &mut rest);
    }
    out.push(6);
    write_sdnv(primary.flags, out);
    write_sdnv(rest.len() as u64, out);
    out.extend(rest);
    for (index, block) in blocks.iter().enumerate() {
        write_block(block, index + 1 == blocks.len(), &dictionary, out);
    }
}

fn write_block(block: &Block6, is_last: bool, dictionary: &Dictionary, out: &mut Vec<u8>) {
    let last = if is_last { LAST } else { 0 };
    let has_refs = if block.refs.is_empty() { 0 } else { HAS_REFS };
    out.push(block.kind);
    write_sdnv(block.flags | last | has_refs, out);
    if !block.refs.is_empty() {
        write_sdnv(block.refs.len() as u64, out);
        block
            .refs
            .iter()
            .for_each(|name| dictionary.write_name(name, out));
    }
    write_sdnv(block.body.len() as u64, out);
    out.extend(block.body);
}
