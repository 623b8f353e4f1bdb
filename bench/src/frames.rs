// Frames of every sort, and both splitters on them.
use crate::random::Random;
use crate::{plain_split, proved};

const TYPES: u8 = 14;

// A remaining length in its shortest form, or in a longer one of `extra` more bytes, at most four in all.
pub fn push_length(frame: &mut Vec<u8>, mut length: usize, extra: usize) {
    let mut count = 1;
    while length >= 128 {
        frame.push(length as u8 | 128);
        length >>= 7;
        count += 1;
    }
    let extra = extra.min(4 - count.min(4));
    if extra == 0 {
        frame.push(length as u8);
        return;
    }
    frame.push(length as u8 | 128);
    for i in 0..extra {
        frame.push(if i + 1 == extra { 0 } else { 128 });
    }
}

fn legal_first(random: &mut Random) -> u8 {
    const PUBLISH: [u8; 10] = [0, 1, 2, 3, 4, 5, 10, 11, 12, 13];
    let packet_type = 1 + random.below(TYPES as usize) as u8;
    let flags = match packet_type {
        3 => PUBLISH[random.below(PUBLISH.len())],
        6 | 8 | 10 => 2,
        _ => 0,
    };
    packet_type << 4 | flags
}

// Lengths that lie at a border, or anywhere up to 600.
fn body_length(random: &mut Random) -> usize {
    const BORDERS: [usize; 9] = [0, 1, 2, 127, 128, 129, 539, 540, 541];
    if random.below(4) == 0 {
        BORDERS[random.below(BORDERS.len())]
    } else {
        random.below(601)
    }
}

pub fn valid(random: &mut Random) -> Vec<u8> {
    let length = body_length(random).min(540);
    let mut frame = vec![legal_first(random)];
    push_length(&mut frame, length, 0);
    frame.extend(random.bytes(length));
    frame
}

// A frame that was whole and then was hit: a byte changed, cut, grown, a longer form, or a wrong length.
fn damaged(random: &mut Random) -> Vec<u8> {
    let mut frame = valid(random);
    match random.below(6) {
        0 => {
            let at = random.below(frame.len().min(6));
            frame[at] = random.next() as u8;
        }
        1 => frame.truncate(random.below(frame.len() + 1)),
        2 => {
            let more = 1 + random.below(5);
            frame.extend(random.bytes(more));
        }
        3 => {
            let length = body_length(random);
            frame = vec![random.next() as u8];
            push_length(&mut frame, length, random.below(4));
            frame.extend(random.bytes(length));
        }
        4 => {
            let told = random.next() as usize & 0x0fff_ffff;
            let length = body_length(random);
            frame = vec![legal_first(random)];
            push_length(&mut frame, told, 0);
            frame.extend(random.bytes(length));
        }
        _ => {
            let length = body_length(random);
            frame = vec![legal_first(random), 128 | random.next() as u8, 128 | random.next() as u8, 128 | random.next() as u8];
            frame.push(random.next() as u8);
            frame.extend(random.bytes(length));
        }
    }
    frame
}

pub fn any(random: &mut Random) -> Vec<u8> {
    match random.below(3) {
        0 => valid(random),
        1 => damaged(random),
        _ => {
            let length = random.below(12);
            random.bytes(length)
        }
    }
}

// How many frames were compared, how many of them are whole, and how many of each type.
pub struct Compared {
    pub frames: usize,
    pub whole: usize,
    pub by_type: [usize; 15],
}

fn compare(frame: &[u8], seen: &mut Compared) {
    let plain = plain_split::split(frame);
    let proved = proved::split(frame);
    assert_eq!(proved, plain, "frame {frame:02x?}");
    seen.frames += 1;
    seen.whole += (plain.field == 0) as usize;
    seen.by_type[plain.packet_type as usize] += 1;
}

pub fn compare_all(count: usize) -> Compared {
    let mut seen = Compared { frames: 0, whole: 0, by_type: [0; 15] };
    let mut random = Random(1);
    compare(&[], &mut seen);
    for first in 0..=255u8 {
        for length in 0..=600 {
            let mut frame = vec![first];
            push_length(&mut frame, length, 0);
            frame.resize(frame.len() + length, 0);
            compare(&frame, &mut seen);
        }
    }
    for _ in 0..count {
        compare(&any(&mut random), &mut seen);
    }
    seen
}
