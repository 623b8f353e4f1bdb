// Random scripts through table, journal and hash map, compared answer by answer and buffer by buffer.
use crate::plain_store;
use crate::proved::ProvedStore;
use crate::random::Random;
use crate::script::Operation;

const POOL: usize = 4096;

// What was compared, and how often each sort of answer came.
#[derive(Default, Debug)]
pub struct Compared {
    pub scripts: usize,
    pub runs: usize,
    pub answers: usize,
    pub loads_of_rows: usize,
    pub done: usize,
    pub bad: usize,
    pub gone: usize,
    pub no_room: usize,
}

// Few keys, so that rows are met again; now and then one at or beyond a limit.
fn key(random: &mut Random) -> (u8, u16) {
    const BORDERS: [u16; 6] = [127, 128, 1023, 1024, 1152, 65535];
    let kind = random.below(2) as u8;
    match random.below(12) {
        0 => (kind, BORDERS[random.below(BORDERS.len())]),
        1 => (kind, random.below(1024) as u16),
        _ => (kind, random.below(12) as u16),
    }
}

fn row_length(random: &mut Random) -> u16 {
    const BORDERS: [u16; 5] = [0, 1, 559, 560, 561];
    if random.below(3) == 0 {
        BORDERS[random.below(BORDERS.len())]
    } else {
        random.below(600) as u16
    }
}

fn operation(random: &mut Random) -> Operation {
    let (kind, number) = key(random);
    match random.below(20) {
        0..=8 => Operation::Put { kind, number, start: random.below(POOL) as u16, length: row_length(random) },
        9..=12 => Operation::Remove { kind, number },
        13..=17 => Operation::Load { kind, number },
        18 => Operation::Power { writes: random.below(40) as u16 },
        _ => Operation::Free,
    }
}

struct Case<'a> {
    rows: u32,
    script: &'a [u64],
    pool: &'a [u8],
    buffer: usize,
    places: usize,
}

type Outcome = (u32, Vec<u8>, Vec<u64>);

fn outcome(case: &Case, run: impl Fn(u32, &[u64], &[u8], &mut [u8], &mut [u64]) -> u32) -> Outcome {
    let mut buffer = vec![0xa5; case.buffer];
    let mut answers = vec![77; case.places];
    let status = run(case.rows, case.script, case.pool, &mut buffer, &mut answers);
    (status, buffer, answers)
}

// All three give the same status, answers and buffer.
fn compare(case: &Case, seen: &mut Compared) -> Outcome {
    let plain = outcome(case, plain_store::run);
    let table = outcome(case, |r, s, p, b, a| ProvedStore::Table.run(r, s, p, b, a));
    let journal = outcome(case, |r, s, p, b, a| ProvedStore::Journal.run(r, s, p, b, a));
    assert!(table == plain, "table differs on {:x?} for {} rows", case.script, case.rows);
    assert!(journal == plain, "journal differs on {:x?} for {} rows", case.script, case.rows);
    seen.runs += 1;
    plain
}

fn count(script: &[u64], answers: &[u64], seen: &mut Compared) {
    for (word, answer) in script.iter().zip(answers) {
        let load = matches!(Operation::from_word(*word), Operation::Load { .. });
        seen.answers += 1;
        seen.loads_of_rows += (load && (1..=560).contains(answer)) as usize;
        seen.done += (*answer == 0) as usize;
        seen.bad += (*answer == plain_store::BAD) as usize;
        seen.gone += (*answer == plain_store::GONE) as usize;
        seen.no_room += (*answer == plain_store::NO_ROOM) as usize;
    }
}

// Each script runs whole, and again up to each load of a row, so that the bytes of every load are compared.
fn compare_script(random: &mut Random, pool: &[u8], seen: &mut Compared) {
    const ROWS: [u32; 6] = [0, 1, 3, 8, 20, 1152];
    let rows = ROWS[random.below(ROWS.len())];
    let mut script = vec![Operation::Power { writes: random.below(300) as u16 }.word()];
    script.extend((0..200).map(|_| operation(random).word()));
    let buffer = [560, 560, 560, 600, 559, 0][random.below(6)];
    let case = Case { rows, script: &script, pool, buffer, places: script.len() + random.below(3) };
    let (_, _, answers) = compare(&case, seen);
    count(&script, &answers, seen);
    for (i, word) in script.iter().enumerate() {
        let load = matches!(Operation::from_word(*word), Operation::Load { .. });
        if load && (1..=560).contains(&answers[i]) {
            compare(&Case { rows, script: &script[..=i], pool, buffer, places: i + 1 }, seen);
        }
    }
    seen.scripts += 1;
}

pub fn compare_all(scripts: usize) -> Compared {
    let mut random = Random(3);
    let mut seen = Compared::default();
    let pool = random.bytes(POOL);
    for rows in [0, 1, 1151, 1152, 1153, u32::MAX] {
        compare(&Case { rows, script: &[4, 4], pool: &pool, buffer: 560, places: 2 }, &mut seen);
        compare(&Case { rows, script: &[4, 4], pool: &pool, buffer: 560, places: 1 }, &mut seen);
    }
    for _ in 0..scripts {
        compare_script(&mut random, &pool, &mut seen);
    }
    long_scripts(&mut random, &pool, &mut seen);
    seen
}

// Long scripts over many keys, so that the journal clears its dead changes many times; each ends with a load.
fn long_scripts(random: &mut Random, pool: &[u8], seen: &mut Compared) {
    for rows in [1, 2, 5, 40, 300, 1152] {
        for _ in 0..20 {
            let mut script = Vec::new();
            for i in 0..20_000 {
                if i % 5_000 == 0 {
                    script.push(Operation::Power { writes: u16::MAX }.word());
                }
                script.push(operation(random).word());
            }
            let (kind, number) = key(random);
            script.push(Operation::Load { kind, number }.word());
            let case = Case { rows, script: &script, pool, buffer: 560, places: script.len() };
            let (_, _, answers) = compare(&case, seen);
            count(&script, &answers, seen);
            seen.scripts += 1;
        }
    }
}
