//! Endpoints, as texts and in both versions of bundles.

use crate::decimal;
use crate::fields::{ARRAY, Cause, Fields, Refusal, TEXT, UNSIGNED, must, write_head};

#[derive(Clone, Copy, Debug, PartialEq)]
pub enum Endpoint<'a> {
    Null,
    Ipn(u64, u64),
    Dtn(&'a [u8]),
}

fn is_ssp(text: &[u8]) -> bool {
    (1..=1023).contains(&text.len()) && text != b"none" && text.iter().all(u8::is_ascii_graphic)
}

impl<'a> Endpoint<'a> {
    /// The endpoint of a scheme and what follows it.
    pub fn of_parts(scheme: &[u8], ssp: &'a [u8]) -> Option<Endpoint<'a>> {
        match scheme {
            b"dtn" if ssp == b"none" => Some(Endpoint::Null),
            b"dtn" if is_ssp(ssp) => Some(Endpoint::Dtn(ssp)),
            b"ipn" => {
                let dot = ssp.iter().position(|octet| *octet == b'.')?;
                Some(Endpoint::Ipn(
                    decimal::read(&ssp[..dot])?,
                    decimal::read(&ssp[dot + 1..])?,
                ))
            }
            _ => None,
        }
    }

    pub fn of_text(text: &'a [u8]) -> Option<Endpoint<'a>> {
        let colon = text.iter().position(|octet| *octet == b':')?;
        Endpoint::of_parts(&text[..colon], &text[colon + 1..])
    }

    pub fn scheme(&self) -> &'static [u8] {
        if matches!(self, Endpoint::Ipn(..)) {
            b"ipn"
        } else {
            b"dtn"
        }
    }

    pub fn write_ssp(&self, out: &mut Vec<u8>) {
        match self {
            Endpoint::Null => out.extend(b"none"),
            Endpoint::Ipn(node, service) => {
                decimal::write(*node, out);
                out.push(b'.');
                decimal::write(*service, out);
            }
            Endpoint::Dtn(ssp) => out.extend(*ssp),
        }
    }

    pub fn write_text(&self, out: &mut Vec<u8>) {
        out.extend(self.scheme());
        out.push(b':');
        self.write_ssp(out);
    }

    /// Whether it is one receiver.
    pub fn is_singleton(&self) -> bool {
        match self {
            Endpoint::Null => false,
            Endpoint::Ipn(..) => true,
            Endpoint::Dtn(ssp) => !ssp.windows(2).any(|pair| pair == b"/~"),
        }
    }

    /// Reads an EID of version 7 (RFC 9171, section 4.2.5).
    pub fn read_eid(fields: &mut Fields<'a>) -> Result<Endpoint<'a>, Refusal> {
        let at = fields.at;
        must(fields.head(ARRAY, Cause::Eid)? == 2, at, Cause::Eid)?;
        let at = fields.at;
        let scheme = fields.unsigned(Cause::Eid)?;
        must(matches!(scheme, 1 | 2), at, Cause::Eid)?;
        let at = fields.at;
        if scheme == 2 {
            must(fields.head(ARRAY, Cause::Eid)? == 2, at, Cause::Eid)?;
            return Ok(Endpoint::Ipn(
                fields.unsigned(Cause::Eid)?,
                fields.unsigned(Cause::Eid)?,
            ));
        }
        if fields
            .left()
            .first()
            .is_some_and(|octet| octet >> 5 == TEXT)
        {
            let length = fields.head(TEXT, Cause::Eid)?;
            let at = fields.at;
            let ssp = fields.many(length)?;
            must(is_ssp(ssp), at, Cause::Eid)?;
            return Ok(Endpoint::Dtn(ssp));
        }
        must(fields.unsigned(Cause::Eid)? == 0, at, Cause::Eid)?;
        Ok(Endpoint::Null)
    }

    pub fn write_eid(&self, out: &mut Vec<u8>) {
        write_head(ARRAY, 2, out);
        match self {
            Endpoint::Null => out.extend([1, 0]),
            Endpoint::Ipn(node, service) => {
                out.push(2);
                write_head(ARRAY, 2, out);
                write_head(UNSIGNED, *node, out);
                write_head(UNSIGNED, *service, out);
            }
            Endpoint::Dtn(ssp) => {
                out.push(1);
                write_head(TEXT, ssp.len() as u64, out);
                out.extend(*ssp);
            }
        }
    }
}
