// Operations on a store as numbers: bits 0 to 7 the operation, 8 to 15 the kind, 16 to 31 the number,
// 32 to 47 where a put's row starts in the pool, 48 to 63 its length.

#[derive(Clone, Copy)]
pub enum Operation {
    Put { kind: u8, number: u16, start: u16, length: u16 },
    Remove { kind: u8, number: u16 },
    Load { kind: u8, number: u16 },
    Power { writes: u16 },
    Free,
}

impl Operation {
    pub fn word(self) -> u64 {
        let keyed = |operation: u64, kind: u8, number: u16| operation | (kind as u64) << 8 | (number as u64) << 16;
        match self {
            Operation::Put { kind, number, start, length } => {
                keyed(0, kind, number) | (start as u64) << 32 | (length as u64) << 48
            }
            Operation::Remove { kind, number } => keyed(1, kind, number),
            Operation::Load { kind, number } => keyed(2, kind, number),
            Operation::Power { writes } => keyed(3, 0, writes),
            Operation::Free => 4,
        }
    }

    pub fn from_word(word: u64) -> Operation {
        let kind = (word >> 8 & 255 != 0) as u8;
        let number = (word >> 16) as u16;
        match word & 255 {
            0 => Operation::Put { kind, number, start: (word >> 32) as u16, length: (word >> 48) as u16 },
            1 => Operation::Remove { kind, number },
            2 => Operation::Load { kind, number },
            3 => Operation::Power { writes: number },
            _ => Operation::Free,
        }
    }
}
