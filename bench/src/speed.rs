// Both sides timed in one run, turn by turn, the best of many turns of each.
use crate::proved::ProvedStore;
use crate::random::Random;
use crate::script::Operation;
use crate::{frames, packets, plain_read, plain_split, plain_store, proved};
use std::hint::black_box;
use std::time::Instant;

const TURNS: usize = 101;
const KEYS: usize = 1152;

// The least of the times and the middle one, in nanoseconds.
#[derive(Clone, Copy)]
struct Time {
    least: f64,
    middle: f64,
}

// Times the works in alternation, so that all meet the same other load.
fn times<const N: usize>(works: [&dyn Fn(); N]) -> [Time; N] {
    let mut all = works.map(|_| Vec::new());
    for _ in 0..TURNS {
        for (work, times) in works.iter().zip(&mut all) {
            let start = Instant::now();
            work();
            times.push(start.elapsed().as_nanos() as f64);
        }
    }
    all.map(|mut times| {
        times.sort_by(f64::total_cmp);
        Time { least: times[0], middle: times[times.len() / 2] }
    })
}

fn frame_speed(name: &str, frames: &[Vec<u8>]) {
    let [proved, plain] = times([
        &|| {
            for frame in frames {
                black_box(proved::split(black_box(frame)));
            }
        },
        &|| {
            for frame in frames {
                black_box(plain_split::split(black_box(frame)));
            }
        },
    ]);
    let each = frames.len() as f64;
    println!(
        "{name}: proved {:.1} ns a frame ({:.0} million a second), plain {:.1} ns, ratio {:.2} (middle turn {:.2})",
        proved.least / each,
        each * 1000.0 / proved.least,
        plain.least / each,
        plain.least / proved.least,
        plain.middle / proved.middle,
    );
}

// Both readers on the same packets; the plain one has its list of filters lent, so that neither allocates.
fn packet_speed(name: &str, packets: &[Vec<u8>]) {
    let found = std::cell::RefCell::new(Vec::with_capacity(8));
    let [proved, plain] = times([
        &|| {
            for packet in packets {
                black_box(proved::read(black_box(packet)));
            }
        },
        &|| {
            for packet in packets {
                black_box(plain_read::read(black_box(packet), &mut found.borrow_mut()));
            }
        },
    ]);
    let each = packets.len() as f64;
    println!(
        "{name}: proved {:.1} ns a packet ({:.1} million a second), plain {:.1} ns, ratio {:.2} (middle turn {:.2})",
        proved.least / each,
        each * 1000.0 / proved.least,
        plain.least / each,
        plain.least / proved.least,
        plain.middle / proved.middle,
    );
}

pub fn packets() {
    let mut random = Random(4);
    let mut all: Vec<Vec<u8>> = (0..40_000).map(|_| packets::whole(&mut random)).collect();
    all.retain(|packet| plain_read::read(packet, &mut Vec::new()).field == 0);
    packet_speed("whole packets", &all);
    let (texts, others): (Vec<_>, Vec<_>) = all.into_iter().partition(|packet| matches!(packet[0] >> 4, 1 | 3 | 8 | 10));
    packet_speed("packets without a text", &others);
    packet_speed("packets with texts", &texts);
    let publish: Vec<_> = texts.into_iter().filter(|packet| packet[0] >> 4 == 3).collect();
    packet_speed("PUBLISH alone", &publish);
}

pub fn frames() {
    let mut random = Random(2);
    let whole: Vec<_> = (0..20_000).map(|_| frames::valid(&mut random)).collect();
    let mixed: Vec<_> = (0..20_000).map(|_| frames::any(&mut random)).collect();
    frame_speed("whole frames", &whole);
    frame_speed("mixed frames", &mixed);
}

// Works on a full store: a beginning that fills it, and what is timed beyond it.
struct Work<'a> {
    pool: &'a [u8],
    begin: Vec<u64>,
}

// Nanoseconds for one operation, by the least and by the middle times.
#[derive(Clone, Copy)]
struct Cost {
    least: f64,
    middle: f64,
}

const POWER: Operation = Operation::Power { writes: u16::MAX };

// Every key once, in an order that is not theirs.
fn shuffled(random: &mut Random) -> Vec<(u8, u16)> {
    let mut keys: Vec<(u8, u16)> = (0..128).map(|n| (0, n)).chain((0..1024).map(|n| (1, n))).collect();
    for i in (1..keys.len()).rev() {
        keys.swap(i, random.below(i + 1));
    }
    keys
}

fn put(key: (u8, u16), length: u16, random: &mut Random) -> Operation {
    Operation::Put { kind: key.0, number: key.1, start: random.below(2048) as u16, length }
}

impl Work<'_> {
    // The cost of the operations on hash map, table and journal, that of the beginning and of making the store taken off.
    fn cost(&self, operations: &[Operation], count: usize) -> [Cost; 3] {
        let mut script = self.begin.clone();
        for chunk in operations.chunks(10_000) {
            script.push(POWER.word());
            script.extend(chunk.iter().map(|operation| operation.word()));
        }
        let run = |store: Option<ProvedStore>, script: &[u64]| {
            let mut buffer = [0; plain_store::ROW_BYTES];
            let mut answers = vec![0; script.len()];
            let status = match store {
                None => plain_store::run(KEYS as u32, script, self.pool, &mut buffer, &mut answers),
                Some(store) => store.run(KEYS as u32, script, self.pool, &mut buffer, &mut answers),
            };
            assert!(status == 0 && answers.iter().all(|answer| *answer <= 560));
            black_box(buffer);
        };
        let (table, journal) = (Some(ProvedStore::Table), Some(ProvedStore::Journal));
        let all = times([
            &|| run(None, &self.begin),
            &|| run(None, &script),
            &|| run(table, &self.begin),
            &|| run(table, &script),
            &|| run(journal, &self.begin),
            &|| run(journal, &script),
        ]);
        [0, 2, 4].map(|i| Cost {
            least: (all[i + 1].least - all[i].least) / count as f64,
            middle: (all[i + 1].middle - all[i].middle) / count as f64,
        })
    }
}

fn tell(name: &str, [plain, table, journal]: [Cost; 3]) {
    let tell_one = |store: &str, cost: Cost| {
        println!(
            "{name}, {store}: {:.1} ns ({:.1} million a second), ratio {:.2} (middle turn {:.2})",
            cost.least,
            1000.0 / cost.least,
            plain.least / cost.least,
            plain.middle / cost.middle,
        );
    };
    tell_one("hash map", plain);
    tell_one("table", table);
    tell_one("journal", journal);
}

// All 1,152 rows stand. The beginning puts every key, and then so many more that the journal has used all of its
// 2,305 places and has just cleared them: memory is touched, and 1,152 places are left until the next clearing.
pub fn stores(length: u16) {
    let mut random = Random(4);
    let pool = random.bytes(4096);
    let keys = shuffled(&mut random);
    let puts = |count: usize, random: &mut Random| -> Vec<Operation> {
        (0..count).map(|i| put(keys[i % KEYS], length, random)).collect()
    };
    let mut begin = vec![POWER.word()];
    begin.extend(puts(2 * KEYS + 2, &mut random).iter().map(|operation| operation.word()));
    let work = Work { pool: &pool, begin };
    let rounds = 40 * KEYS;
    tell(&format!("put of {length} bytes"), work.cost(&puts(rounds, &mut random), rounds));
    let loads: Vec<_> = (0..rounds).map(|_| keys[random.below(KEYS)]).map(|(kind, number)| Operation::Load { kind, number }).collect();
    tell(&format!("load of {length} bytes"), work.cost(&loads, rounds));
    let drops: Vec<_> = shuffled(&mut random).iter().map(|&(kind, number)| Operation::Remove { kind, number }).collect();
    tell("drop, each row once", work.cost(&drops, KEYS));
    let pairs: Vec<_> = (0..rounds)
        .flat_map(|i| {
            let key = keys[i * 7 % KEYS];
            [Operation::Remove { kind: key.0, number: key.1 }, put(key, length, &mut random)]
        })
        .collect();
    tell(&format!("drop and put of {length} bytes"), work.cost(&pairs, rounds));
    let few = work.cost(&puts(1_000, &mut random), 1_000);
    let many = work.cost(&puts(10_000, &mut random), 10_000);
    for (i, store) in ["hash map", "table", "journal"].iter().enumerate() {
        println!(
            "put of {length} bytes, {store}: {:.1} ns over 10,000, {:.1} ns over 1,000, {:.2} times as much (middle turn {:.2})",
            many[i].least,
            few[i].least,
            many[i].least / few[i].least,
            many[i].middle / few[i].middle,
        );
    }
}
