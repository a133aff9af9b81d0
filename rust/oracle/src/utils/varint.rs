//! Stand-in for upstream's `Varint32` (not at hand): unsigned LEB128, DWARF 5, 7.6.
//! Used only on sound frames; the judging reader of lengths is in model.rs.

pub(crate) struct Varint32;

impl Varint32 {
    /// Bytes that the shortest form of `n` takes.
    pub(crate) fn size(n: usize) -> usize {
        let mut rest = n >> 7;
        let mut size = 1;
        while rest != 0 {
            rest >>= 7;
            size += 1;
        }
        size
    }

    pub(crate) fn encode(to: &mut [u8], n: u32) {
        let mut rest = n;
        let mut i = 0;
        while rest >= 0x80 {
            to[i] = rest as u8 | 0x80;
            rest >>= 7;
            i += 1;
        }
        to[i] = rest as u8;
    }

    /// The number and the bytes that it took.
    #[inline(always)]
    pub(crate) fn decode(from: &[u8]) -> Option<(u32, usize)> {
        let mut n = 0u32;
        for (i, &b) in from.iter().take(5).enumerate() {
            n |= u32::from(b & 0x7f) << (7 * i);
            if b & 0x80 == 0 {
                return Some((n, i + 1));
            }
        }
        None
    }
}
