// A packet's parts told in plain Rust, written from the rules and not from the proved code.
use crate::proved::SplitOutcome;

const MAX_BODY: usize = 540;

// PUBLISH: QoS (bits 1 and 2) is not 3, and DUP (bit 3) only above QoS 0; PUBREL, SUBSCRIBE and UNSUBSCRIBE: 2; others: 0.
fn legal(packet_type: u8, flags: u8) -> bool {
    match packet_type {
        3 => {
            let qos = (flags >> 1) & 3;
            qos != 3 && (flags & 8 == 0 || qos != 0)
        }
        6 | 8 | 10 => flags == 2,
        1..=14 => flags == 0,
        _ => false,
    }
}

fn bad(field: u8, place: usize) -> SplitOutcome {
    SplitOutcome { packet_type: 0, flags: 0, field, place, length: 0 }
}

pub fn split(bytes: &[u8]) -> SplitOutcome {
    let Some((&first, rest)) = bytes.split_first() else {
        return bad(1, 0);
    };
    let (packet_type, flags) = (first >> 4, first & 15);
    if !legal(packet_type, flags) {
        return bad(1, 0);
    }
    let mut length = 0usize;
    for (i, &byte) in rest.iter().take(4).enumerate() {
        length |= ((byte & 127) as usize) << (7 * i);
        if byte & 128 == 0 {
            let body = rest.len() - (i + 1);
            if length > MAX_BODY || length != body {
                break;
            }
            return SplitOutcome { packet_type, flags, field: 0, place: i + 2, length };
        }
    }
    bad(2, 1)
}
