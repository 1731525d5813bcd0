//! The checks of version 7 (RFC 9171, section 4.2.1): CRC-16 X-25 and CRC-32C.

const fn table(polynomial: u32) -> [u32; 256] {
    let mut table = [0; 256];
    let mut index = 0;
    while index < 256 {
        let mut crc = index as u32;
        let mut bit = 0;
        while bit < 8 {
            crc = if crc & 1 == 1 {
                crc >> 1 ^ polynomial
            } else {
                crc >> 1
            };
            bit += 1;
        }
        table[index] = crc;
        index += 1;
    }
    table
}

const CRC16: [u32; 256] = table(0x8408);
const CRC32C: [u32; 256] = table(0x82f6_3b78);

fn feed(table: &[u32; 256], start: u32, octets: &[u8]) -> u32 {
    octets.iter().fold(start, |crc, octet| {
        crc >> 8 ^ table[(crc as u8 ^ octet) as usize]
    })
}

/// The CRC of type 1 or 2 of octets and as many zeros as it has octets itself.
pub fn of_block(kind: u8, octets: &[u8]) -> [u8; 4] {
    if kind == 1 {
        let crc = feed(&CRC16, feed(&CRC16, 0xffff, octets), &[0; 2]);
        (!crc << 16).to_be_bytes()
    } else {
        let crc = feed(&CRC32C, feed(&CRC32C, !0, octets), &[0; 4]);
        (!crc).to_be_bytes()
    }
}
