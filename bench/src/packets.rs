// Packets of every type, whole, damaged and random, and both readers on them.
use crate::frames;
use crate::random::Random;
use crate::{plain_read, proved};

fn text(bytes: &[u8]) -> Vec<u8> {
    let mut all = (bytes.len() as u16).to_be_bytes().to_vec();
    all.extend(bytes);
    all
}

fn words(random: &mut Random, most: usize, alphabet: &[&[u8]]) -> Vec<u8> {
    let mut all = Vec::new();
    for _ in 0..1 + random.below(most) {
        all.extend(alphabet[random.below(alphabet.len())]);
    }
    all
}

const NAME: [&[u8]; 8] = [b"a", b"bed", b"/", b"\xc3\xa9", b"$", b" ", b"\xf0\x9f\x94\xa5", b"0"];
const LEVELS: [&[u8]; 6] = [b"a", b"+", b"bed", b"", b"\xe2\x82\xac", b"x1"];

fn topic(random: &mut Random) -> Vec<u8> {
    match random.below(24) {
        0 => vec![b't'; 64],
        1 => vec![b't'; 65],
        2 => Vec::new(),
        3 => words(random, 3, &[b"a", b"+", b"#", b"\x00", b"\xff", b"\xed\xa0\x80"]),
        _ => words(random, 12, &NAME),
    }
}

fn filter(random: &mut Random) -> Vec<u8> {
    if random.below(16) == 0 {
        return topic(random);
    }
    let mut all = Vec::new();
    for i in 0..1 + random.below(4) {
        if i > 0 {
            all.push(b'/');
        }
        all.extend(LEVELS[random.below(LEVELS.len())]);
    }
    match random.below(12) {
        0 => all.extend(b"/#"),
        1 => all.extend(b"#"),
        2 => all.extend(b"/#/"),
        _ => {}
    }
    all
}

fn id(random: &mut Random) -> [u8; 2] {
    match random.below(16) {
        0 => [0, 0],
        1 => [255, 255],
        _ => (random.next() as u16).to_be_bytes(),
    }
}

fn bytes_of(random: &mut Random) -> (u8, Vec<u8>) {
    let packet_type = 1 + random.below(14) as u8;
    let mut flags = if matches!(packet_type, 6 | 8 | 10) { 2 } else { 0 };
    let mut body = Vec::new();
    match packet_type {
        1 => {
            body.extend(b"\x00\x04MQTT");
            body.extend([if random.below(12) == 0 { 5 } else { 4 }, (random.below(12) == 0) as u8 * 2, 0, 60]);
            let client = if random.below(8) == 0 { topic(random) } else { words(random, 5, &[b"P", b"7", b"x"]) };
            body.extend(text(&client));
        }
        2 => body.extend([random.below(3) as u8, random.below(7) as u8]),
        3 => {
            flags = [0, 1, 2, 3, 4, 5, 10, 11, 12, 13][random.below(10)];
            body.extend(text(&topic(random)));
            if flags & 6 != 0 {
                body.extend(id(random));
            }
            let length = if random.below(20) == 0 { 250 + random.below(12) } else { random.below(80) };
            body.extend(random.bytes(length));
        }
        8 | 10 => {
            body.extend(id(random));
            let count = if random.below(8) == 0 { random.below(11) } else { 1 + random.below(3) };
            for _ in 0..count {
                body.extend(text(&filter(random)));
                if packet_type == 8 {
                    body.push(if random.below(24) == 0 { 3 } else { random.below(3) as u8 });
                }
            }
        }
        9 => {
            body.extend(id(random));
            for _ in 0..random.below(10) {
                let choices = if random.below(6) == 0 { 8 } else { 7 };
                body.push([0, 1, 2, 0x80, 0x80, 1, 0, 3][random.below(choices)]);
            }
        }
        12..=14 => {}
        _ => body.extend(id(random)),
    }
    (packet_type << 4 | flags, body)
}

pub fn whole(random: &mut Random) -> Vec<u8> {
    let (first, body) = bytes_of(random);
    let mut packet = vec![first];
    frames::push_length(&mut packet, body.len(), if random.below(10) == 0 { 1 } else { 0 });
    packet.extend(body);
    packet
}

// A packet that was hit in its body, with its length told anew in most cases.
fn damaged(random: &mut Random) -> Vec<u8> {
    let (first, mut body) = bytes_of(random);
    for _ in 0..1 + random.below(3) {
        match random.below(3) {
            0 if !body.is_empty() => {
                let at = random.below(body.len());
                body[at] = random.next() as u8;
            }
            1 => body.truncate(random.below(body.len() + 1)),
            _ => body.push(random.next() as u8),
        }
    }
    let told = if random.below(8) == 0 { random.below(600) } else { body.len() };
    let mut packet = vec![if random.below(16) == 0 { random.next() as u8 } else { first }];
    frames::push_length(&mut packet, told, 0);
    packet.extend(body);
    packet
}

// How many packets were compared, how many were read, by type (15: another level), and how many were refused, by field.
pub struct Compared {
    pub packets: usize,
    pub by_type: [usize; 16],
    pub by_field: [usize; 12],
}

fn compare(packet: &[u8], seen: &mut Compared, found: &mut Vec<proved::FilterOutcome>) {
    let plain = plain_read::read(packet, found);
    assert_eq!(proved::read(packet), plain, "packet {packet:02x?}");
    if plain.packet_type == 8 || plain.packet_type == 10 {
        for index in 0..=found.len() {
            let filter = found.get(index).copied().unwrap_or_default();
            assert_eq!(proved::filter(packet, index), filter, "filter {index} of {packet:02x?}");
        }
    }
    seen.packets += 1;
    seen.by_type[plain.packet_type as usize] += 1;
    seen.by_field[plain.field as usize] += 1;
}

pub fn compare_all(count: usize) -> Compared {
    let mut seen = Compared { packets: 0, by_type: [0; 16], by_field: [0; 12] };
    let mut random = Random(3);
    let mut found = Vec::new();
    for _ in 0..count {
        let packet = match random.below(5) {
            0..=1 => whole(&mut random),
            2..=3 => damaged(&mut random),
            _ => frames::any(&mut random),
        };
        compare(&packet, &mut seen, &mut found);
    }
    seen
}
