//! Bundles as JSON: names in order, no spaces.

use crate::bundle6::{Bundle6, Fragment};
use crate::bundle7::Bundle7;
use crate::decimal;
use crate::endpoint::Endpoint;
use crate::hex;

/// A text of JSON that grows.
struct Text<'a>(&'a mut Vec<u8>);

impl Text<'_> {
    fn put(&mut self, text: &str) {
        self.0.extend(text.as_bytes());
    }

    fn number(&mut self, before: &str, value: u64) {
        self.put(before);
        decimal::write(value, self.0);
    }

    fn endpoint(&mut self, before: &str, endpoint: &Endpoint) {
        self.put(before);
        self.put("\"");
        match endpoint {
            Endpoint::Dtn(ssp) => {
                self.put("dtn:");
                for octet in *ssp {
                    if matches!(octet, b'"' | b'\\') {
                        self.put("\\");
                    }
                    self.0.push(*octet);
                }
            }
            _ => endpoint.write_text(self.0),
        }
        self.put("\"");
    }

    fn fragment(&mut self, fragment: Option<Fragment>) {
        if let Some(Fragment { offset, total }) = fragment {
            self.number(",\"fragment\":[", offset);
            self.number(",", total);
            self.put("]");
        } else {
            self.put(",\"fragment\":null");
        }
    }

    /// The beginning of a block.
    fn body(&mut self, index: usize, body: &[u8]) {
        self.put(if index > 0 {
            ",{\"body\":\""
        } else {
            "{\"body\":\""
        });
        hex::write(body, self.0);
        self.put("\"");
    }
}

pub fn write6(bundle: &Bundle6, text: &mut Vec<u8>) {
    let primary = &bundle.primary;
    let mut text = Text(text);
    text.put("{\"blocks\":[");
    for (index, block) in bundle.blocks.iter().enumerate() {
        text.body(index, block.body);
        text.number(",\"flags\":", block.flags);
        text.number(",\"kind\":", u64::from(block.kind));
        text.put(",\"refs\":[");
        for (index, name) in block.refs.iter().enumerate() {
            text.endpoint(if index > 0 { "," } else { "" }, name);
        }
        text.put("]}");
    }
    text.number("],\"creation\":[", primary.seconds);
    text.number(",", primary.sequence);
    text.endpoint("],\"custodian\":", &primary.custodian);
    text.endpoint(",\"destination\":", &primary.destination);
    text.number(",\"flags\":", primary.flags);
    text.fragment(primary.fragment);
    text.number(",\"lifetime\":", primary.lifetime);
    text.endpoint(",\"report_to\":", &primary.report_to);
    text.endpoint(",\"source\":", &primary.source);
    text.put(",\"version\":6}");
}

pub fn write7(bundle: &Bundle7, text: &mut Vec<u8>) {
    let primary = &bundle.primary;
    let mut text = Text(text);
    text.put("{\"blocks\":[");
    for (index, block) in bundle.blocks.iter().enumerate() {
        text.body(index, block.body);
        text.number(",\"crc\":", u64::from(block.crc));
        text.number(",\"flags\":", block.flags);
        text.number(",\"kind\":", block.kind);
        text.number(",\"number\":", block.number);
        text.put("}");
    }
    text.number("],\"crc\":", u64::from(primary.crc));
    text.number(",\"creation\":[", primary.millis);
    text.number(",", primary.sequence);
    text.endpoint("],\"destination\":", &primary.destination);
    text.number(",\"flags\":", primary.flags);
    text.fragment(primary.fragment);
    text.number(",\"lifetime\":", primary.lifetime);
    text.endpoint(",\"report_to\":", &primary.report_to);
    text.endpoint(",\"source\":", &primary.source);
    text.put(",\"version\":7}");
}
