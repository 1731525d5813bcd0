//! Octets that are read field by field, and the first that isn't there as it should be.

/// Why a bundle or a segment is refused; the words that lines have.
#[derive(Clone, Copy, Debug, PartialEq)]
pub enum Cause {
    Truncated,
    Version,
    Number,
    // bundles of version 6
    Names,
    PrimaryEnd,
    SecondPayload,
    TooManyBlocks,
    NoPayload,
    BlockRefs,
    FragmentRange,
    // bundles of version 7
    Start,
    Head,
    CrcType,
    ItemCount,
    Eid,
    Timestamp,
    Crc,
    BlockHead,
    Repeated,
    BlockNumber,
    Body,
    ExtensionBody,
    Break,
    // segments
    Kind,
    Range,
    Serial,
    Bounds,
    Claim,
    Trailing,
}

/// A field that isn't there as it should be: its place, and why.
#[derive(Debug)]
pub struct Refusal {
    pub at: usize,
    pub cause: Cause,
    /// Where it is `Truncated`: how many octets there must be at least.
    pub wanted: usize,
}

/// A condition on the field at a place.
pub fn must(holds: bool, at: usize, cause: Cause) -> Result<(), Refusal> {
    if holds {
        Ok(())
    } else {
        Err(Refusal {
            at,
            cause,
            wanted: 0,
        })
    }
}

pub const UNSIGNED: u8 = 0;
pub const BYTES: u8 = 2;
pub const TEXT: u8 = 3;
pub const ARRAY: u8 = 4;

/// Octets, and the place of the next field.
pub struct Fields<'a> {
    octets: &'a [u8],
    pub at: usize,
}

impl<'a> Fields<'a> {
    pub fn new(octets: &'a [u8]) -> Fields<'a> {
        Fields { octets, at: 0 }
    }

    pub fn left(&self) -> &'a [u8] {
        &self.octets[self.at..]
    }

    /// The octets from a place up to here.
    pub fn since(&self, start: usize) -> &'a [u8] {
        &self.octets[start..self.at]
    }

    fn truncated<T>(&self, count: u64) -> Result<T, Refusal> {
        let wanted = self
            .at
            .saturating_add(count.try_into().unwrap_or(usize::MAX));
        Err(Refusal {
            at: self.at,
            cause: Cause::Truncated,
            wanted,
        })
    }

    #[inline]
    pub fn octet(&mut self) -> Result<u8, Refusal> {
        let Some(&octet) = self.octets.get(self.at) else {
            return self.truncated(1);
        };
        self.at += 1;
        Ok(octet)
    }

    /// A field of so many octets.
    #[inline]
    pub fn many(&mut self, count: u64) -> Result<&'a [u8], Refusal> {
        if count > self.left().len() as u64 {
            return self.truncated(count);
        }
        let start = self.at;
        self.at += count as usize;
        Ok(self.since(start))
    }

    /// A number as an SDNV (RFC 5050, section 4.1): ten octets at most, and below 2^64.
    #[inline]
    pub fn sdnv(&mut self) -> Result<u64, Refusal> {
        if let Some(&octet) = self.octets.get(self.at)
            && octet < 0x80
        {
            self.at += 1;
            return Ok(u64::from(octet));
        }
        self.long_sdnv()
    }

    fn long_sdnv(&mut self) -> Result<u64, Refusal> {
        let mut value: u64 = 0;
        for (index, octet) in self.left().iter().take(10).enumerate() {
            must(value <= u64::MAX >> 7, self.at, Cause::Number)?;
            value = value << 7 | u64::from(octet & 0x7f);
            if octet & 0x80 == 0 {
                self.at += index + 1;
                return Ok(value);
            }
        }
        let count = self.left().len();
        must(count < 10, self.at, Cause::Number)?;
        self.truncated(count as u64 + 1)
    }

    #[inline]
    pub fn sdnv_pair(&mut self) -> Result<(u64, u64), Refusal> {
        Ok((self.sdnv()?, self.sdnv()?))
    }

    /// The head of a CBOR item of a kind, in its shortest form (RFC 8949, section 3).
    #[inline]
    pub fn head(&mut self, kind: u8, cause: Cause) -> Result<u64, Refusal> {
        let Some(&first) = self.octets.get(self.at) else {
            return self.truncated(1);
        };
        let more = first & 31;
        must(first >> 5 == kind && more <= 27, self.at, cause)?;
        if more < 24 {
            self.at += 1;
            return Ok(u64::from(more));
        }
        self.long_head(more, cause)
    }

    fn long_head(&mut self, more: u8, cause: Cause) -> Result<u64, Refusal> {
        let size = 1 << (more - 24);
        let Some(octets) = self.left().get(1..1 + size) else {
            return self.truncated(1 + size as u64);
        };
        let value = octets
            .iter()
            .fold(0, |value, octet| value << 8 | u64::from(*octet));
        let least = if size == 1 { 24 } else { 1 << (4 * size) };
        must(value >= least, self.at, cause)?;
        self.at += 1 + size;
        Ok(value)
    }

    #[inline]
    pub fn unsigned(&mut self, cause: Cause) -> Result<u64, Refusal> {
        self.head(UNSIGNED, cause)
    }
}

/// Appends a number's shortest SDNV.
pub fn write_sdnv(value: u64, out: &mut Vec<u8>) {
    let bits = 64 - (value | 1).leading_zeros();
    for index in (1..bits.div_ceil(7)).rev() {
        out.push((value >> (7 * index)) as u8 | 0x80);
    }
    out.push(value as u8 & 0x7f);
}

/// Appends the shortest head of a CBOR item.
pub fn write_head(kind: u8, value: u64, out: &mut Vec<u8>) {
    let kind = kind << 5;
    match value {
        0..24 => out.push(kind | value as u8),
        24..0x100 => out.extend([kind | 24, value as u8]),
        0x100..0x1_0000 => {
            out.push(kind | 25);
            out.extend((value as u16).to_be_bytes());
        }
        0x1_0000..0x1_0000_0000 => {
            out.push(kind | 26);
            out.extend((value as u32).to_be_bytes());
        }
        _ => {
            out.push(kind | 27);
            out.extend(value.to_be_bytes());
        }
    }
}
