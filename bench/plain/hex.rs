//! Octets as hex: read in either case, written in lower case.

const NO_DIGIT: u8 = 0xff;

/// What each octet is worth as a digit.
const VALUES: [u8; 256] = {
    let mut values = [NO_DIGIT; 256];
    let mut value = 0;
    while value < 16 {
        values[b"0123456789abcdef"[value] as usize] = value as u8;
        values[b"0123456789ABCDEF"[value] as usize] = value as u8;
        value += 1;
    }
    values
};

/// The octets that a text in hex spells, in place of what `octets` held. False where it is no hex.
pub fn read(text: &[u8], octets: &mut Vec<u8>) -> bool {
    let (pairs, odd) = text.as_chunks::<2>();
    let mut seen = 0;
    octets.clear();
    octets.extend(pairs.iter().map(|[high, low]| {
        let (high, low) = (VALUES[*high as usize], VALUES[*low as usize]);
        seen |= high | low;
        high << 4 | low
    }));
    seen < 16 && odd.is_empty()
}

pub fn write(octets: &[u8], text: &mut Vec<u8>) {
    const DIGITS: &[u8; 16] = b"0123456789abcdef";
    text.extend(
        octets
            .iter()
            .flat_map(|octet| [DIGITS[(octet >> 4) as usize], DIGITS[(octet & 15) as usize]]),
    );
}
