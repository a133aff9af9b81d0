//! lengths.txt: LEB128 both ways and the common bytes of boundaries.

use super::Out;
use crate::prng::Prng;
use crate::{image, text};

pub(super) fn write(out: &mut Out, rng: &mut Prng) {
    out.arena(8, 0);
    let edges = [0u32, 1 << 7, 1 << 14, 1 << 21, 1 << 28];
    let mut numbers: Vec<u32> =
        edges.iter().flat_map(|&e| [e.saturating_sub(1), e, e + 1]).collect();
    numbers.extend([2, 130, 4096, 4108, 12857, 65_536, u32::MAX - 1, u32::MAX]);
    numbers.extend((0..40).map(|_| (rng.number() >> (32 + rng.below(32))) as u32));
    for n in numbers {
        out.say(format!("length {n}"));
        out.say(format!("unlength {}", text::write(&image::length(n as usize))));
    }
    out.note("not the shortest form, too long, over u32, cut short, or followed by other bytes");
    for bad in [
        "-",
        "80",
        "8000",
        "808000",
        "8080808000",
        "ff00",
        "ffffffff0f",
        "ffffffff10",
        "ffffffff1f",
        "ffffffff7f",
        "8080808010",
        "8080808080",
        "808080808001",
        "ffff",
        "ffffff",
        "ffffffff",
        "8001ff",
        "7fff",
        "00ff",
        "b96480",
        "81808000",
    ] {
        out.say(format!("unlength {bad}"));
    }
    for len in 1..=6 {
        for _ in 0..8 {
            let bytes: Vec<u8> =
                rng.bytes(len).iter().map(|b| if b % 3 == 0 { *b } else { b | 0x80 }).collect();
            out.say(format!("unlength {}", text::write(&bytes)));
        }
    }

    out.note("P3 and its neighbours");
    for (lo, hi) in [
        ("6162", "6164"),
        ("6162", "6162"),
        ("6162", "-"),
        ("-", "6162"),
        ("-", "-"),
        ("61", "6162"),
        ("6162", "61"),
        ("00", "ff"),
        ("61*4096.", "61*4096."),
        ("61*4096.", "61*4095.62"),
    ] {
        out.say(format!("common {lo} {hi}"));
    }
    for _ in 0..20 {
        let len = rng.below(20);
        let lo = rng.bytes(len);
        let mut hi = lo[..rng.between(0, len)].to_vec();
        hi.extend(rng.bytes(2));
        out.say(format!("common {} {}", text::write(&lo), text::write(&hi)));
    }
}
