// A store in plain Rust over a hash map, written from the rules of docs/store.md.
use crate::script::Operation;
use std::collections::HashMap;

pub const ROW_BYTES: usize = 560;
pub const BAD: u64 = (1 << 32) + 1;
pub const GONE: u64 = (1 << 32) + 2;
pub const NO_ROOM: u64 = (1 << 32) + 3;
const LIMITS: [u16; 2] = [128, 1024];

pub struct PlainStore {
    rows: HashMap<(u8, u16), Vec<u8>>,
    free: u32,
    writes: u32,
}

impl PlainStore {
    // None for more rows than a store may have.
    pub fn new(rows: u32) -> Option<PlainStore> {
        (rows <= 1152).then(|| PlainStore { rows: HashMap::with_capacity(1152), free: rows, writes: 0 })
    }

    fn put(&mut self, key: (u8, u16), row: &[u8]) -> u64 {
        if key.1 >= LIMITS[key.0 as usize] || row.is_empty() || row.len() > ROW_BYTES {
            return BAD;
        }
        if self.writes == 0 {
            return GONE;
        }
        match self.rows.get_mut(&key) {
            Some(old) => {
                old.clear();
                old.extend_from_slice(row);
            }
            None if self.free == 0 => return NO_ROOM,
            None => {
                self.free -= 1;
                self.rows.insert(key, row.to_vec());
            }
        }
        self.writes -= 1;
        0
    }

    fn remove(&mut self, key: (u8, u16)) -> u64 {
        if key.1 >= LIMITS[key.0 as usize] {
            return BAD;
        }
        if self.writes == 0 {
            return if self.rows.contains_key(&key) { GONE } else { 0 };
        }
        if self.rows.remove(&key).is_some() {
            self.free += 1;
            self.writes -= 1;
        }
        0
    }

    fn load(&self, key: (u8, u16), buffer: &mut [u8]) -> u64 {
        if key.1 >= LIMITS[key.0 as usize] || buffer.len() < ROW_BYTES {
            return BAD;
        }
        match self.rows.get(&key) {
            Some(row) => {
                buffer[..row.len()].copy_from_slice(row);
                row.len() as u64
            }
            None => 0,
        }
    }

    fn perform(&mut self, operation: Operation, pool: &[u8], buffer: &mut [u8]) -> u64 {
        match operation {
            Operation::Put { kind, number, start, length } => {
                let end = start as usize + length as usize;
                self.put((kind, number), pool.get(start as usize..end).unwrap_or(&[]))
            }
            Operation::Remove { kind, number } => self.remove((kind, number)),
            Operation::Load { kind, number } => self.load((kind, number), buffer),
            Operation::Power { writes } => {
                self.writes = writes as u32;
                0
            }
            Operation::Free => self.free as u64,
        }
    }
}

// As the proved stores do: 0 for done, 1 for too many rows or too few places for answers.
pub fn run(rows: u32, script: &[u64], pool: &[u8], buffer: &mut [u8], answers: &mut [u64]) -> u32 {
    let Some(mut store) = PlainStore::new(rows) else {
        return 1;
    };
    if answers.len() < script.len() {
        return 1;
    }
    for (word, answer) in script.iter().zip(answers) {
        *answer = store.perform(Operation::from_word(*word), pool, buffer);
    }
    0
}
