// Compares the proved library with plain Rust: first every answer, then the speed.
mod frames;
mod packets;
mod plain_read;
mod plain_split;
mod plain_store;
mod proved;
mod random;
mod script;
mod speed;
mod stores;

const FRAMES: usize = 1_000_000;
const PACKETS: usize = 6_000_000;
const SCRIPTS: usize = 1_000;

fn main() {
    let seen = frames::compare_all(FRAMES);
    println!("frames compared: {}, of which whole: {}; all equal", seen.frames, seen.whole);
    println!("whole frames by type 1 to 14: {:?}", &seen.by_type[1..]);
    let seen = packets::compare_all(PACKETS);
    println!("packets compared: {}; all equal", seen.packets);
    println!("packets read by type 1 to 14, and of another level: {:?}", &seen.by_type[1..]);
    println!("packets refused by field 1 to 11: {:?}", &seen.by_field[1..]);
    println!("store scripts compared on table, journal and hash map, all equal: {:?}", stores::compare_all(SCRIPTS));
    speed::frames();
    speed::packets();
    speed::stores(64);
    speed::stores(560);
}
