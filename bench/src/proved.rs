// The proved functions, as `crates/exports` marks them. Nothing checks these declarations against it.
// A slice is a pointer and a length; the allocator takes no bytes and is not passed.

#[repr(C)]
#[derive(Clone, Copy, PartialEq, Eq, Debug)]
pub struct SplitOutcome {
    pub packet_type: u8,
    pub flags: u8,
    pub field: u8,
    pub place: usize,
    pub length: usize,
}

extern "C" {
    fn merukpa_split(bytes: *const u8, length: usize) -> SplitOutcome;
}

pub fn split(bytes: &[u8]) -> SplitOutcome {
    unsafe { merukpa_split(bytes.as_ptr(), bytes.len()) }
}

// What a packet says but for its filters; numbers that a type does not have are 0.
#[repr(C)]
#[derive(Clone, Copy, PartialEq, Eq, Debug, Default)]
pub struct ReadOutcome {
    pub packet_type: u8,
    pub field: u8,
    pub flag: u8,
    pub grade: u8,
    pub id: u16,
    pub place: usize,
    pub length: usize,
    pub payload_place: usize,
    pub payload_length: usize,
}

#[repr(C)]
#[derive(Clone, Copy, PartialEq, Eq, Debug, Default)]
pub struct FilterOutcome {
    pub present: u8,
    pub qos: u8,
    pub place: usize,
    pub length: usize,
}

extern "C" {
    fn merukpa_read(bytes: *const u8, length: usize) -> ReadOutcome;
    fn merukpa_filter(bytes: *const u8, length: usize, index: usize) -> FilterOutcome;
}

pub fn read(bytes: &[u8]) -> ReadOutcome {
    unsafe { merukpa_read(bytes.as_ptr(), bytes.len()) }
}

pub fn filter(bytes: &[u8], index: usize) -> FilterOutcome {
    unsafe { merukpa_filter(bytes.as_ptr(), bytes.len(), index) }
}

// One of the two stores: makes it, performs the script, frees it.
pub type RunScript = unsafe extern "C" fn(u32, *const u64, usize, *const u8, usize, *mut u8, usize, *mut u64, usize) -> u32;

extern "C" {
    fn merukpa_table(
        rows: u32,
        script: *const u64,
        script_length: usize,
        pool: *const u8,
        pool_length: usize,
        buffer: *mut u8,
        buffer_length: usize,
        answers: *mut u64,
        answers_length: usize,
    ) -> u32;
    fn merukpa_journal(
        rows: u32,
        script: *const u64,
        script_length: usize,
        pool: *const u8,
        pool_length: usize,
        buffer: *mut u8,
        buffer_length: usize,
        answers: *mut u64,
        answers_length: usize,
    ) -> u32;
}

#[derive(Clone, Copy)]
pub enum ProvedStore {
    Table,
    Journal,
}

impl ProvedStore {
    // 0: done; 1: more than 1,152 rows or too few places for answers; 2: no memory.
    pub fn run(self, rows: u32, script: &[u64], pool: &[u8], buffer: &mut [u8], answers: &mut [u64]) -> u32 {
        let run: RunScript = match self {
            ProvedStore::Table => merukpa_table,
            ProvedStore::Journal => merukpa_journal,
        };
        unsafe {
            run(
                rows,
                script.as_ptr(),
                script.len(),
                pool.as_ptr(),
                pool.len(),
                buffer.as_mut_ptr(),
                buffer.len(),
                answers.as_mut_ptr(),
                answers.len(),
            )
        }
    }
}
