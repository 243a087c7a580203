//! Numbers of several bytes and directories of pairs.

/// The two-byte number at a place, high byte first.
pub fn number(bytes: &[u8], at: usize) -> u16 {
    u16::from_be_bytes([bytes[at], bytes[at + 1]])
}

/// The parts named by `count` pairs (offset, length) that stand from byte `at` on.
///
/// The first part begins right behind the pairs, each next one at the end of the one
/// before, and the last end is the slice's length; otherwise the pairs are off.
/// Ends are plain numbers and may pass 65,535 (reading 2).
pub fn parts(bytes: &[u8], at: usize, count: usize) -> Option<Vec<&[u8]>> {
    let mut end = at + 4 * count;
    if bytes.len() < end {
        return None;
    }
    let mut parts = Vec::new();
    for i in 0..count {
        let offset = number(bytes, at + 4 * i) as usize;
        let length = number(bytes, at + 4 * i + 2) as usize;
        if offset != end {
            return None;
        }
        end = offset + length;
        parts.push(bytes.get(offset..end)?);
    }
    (end == bytes.len()).then_some(parts)
}
