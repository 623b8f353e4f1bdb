// A whole packet read in plain Rust, written from the rules and not from the proved code.
use crate::plain_split;
use crate::proved::{FilterOutcome, ReadOutcome};

const FIRST_LEVEL: u8 = 15;

// The bytes of a packet from a place on; an error is the bad field's number and its place.
struct Reader<'a> {
    packet: &'a [u8],
    at: usize,
}

type Field<T> = Result<T, (u8, usize)>;

impl<'a> Reader<'a> {
    fn take(&mut self, count: usize) -> Field<&'a [u8]> {
        let Some(bytes) = self.packet.get(self.at..self.at + count) else {
            return Err((11, self.packet.len()));
        };
        self.at += count;
        Ok(bytes)
    }

    fn byte(&mut self) -> Field<u8> {
        Ok(self.take(1)?[0])
    }

    fn number(&mut self) -> Field<u16> {
        let bytes = self.take(2)?;
        Ok(u16::from_be_bytes([bytes[0], bytes[1]]))
    }

    fn id(&mut self) -> Field<u16> {
        let at = self.at;
        match self.number()? {
            0 => Err((7, at)),
            id => Ok(id),
        }
    }

    fn text(&mut self, field: u8, good: fn(&[u8]) -> bool) -> Field<(usize, usize)> {
        let at = self.at;
        let length = self.number()? as usize;
        let bytes = self.take(length)?;
        if good(bytes) { Ok((at, length)) } else { Err((field, at)) }
    }

    fn end(&self) -> Field<()> {
        if self.at == self.packet.len() { Ok(()) } else { Err((11, self.at)) }
    }

    fn more(&self) -> bool {
        self.at < self.packet.len()
    }
}

fn is_text(bytes: &[u8]) -> bool {
    !bytes.contains(&0) && std::str::from_utf8(bytes).is_ok()
}

fn is_name(bytes: &[u8]) -> bool {
    (1..=64).contains(&bytes.len()) && !bytes.iter().any(|b| *b == b'+' || *b == b'#') && is_text(bytes)
}

fn is_filter(bytes: &[u8]) -> bool {
    if !(1..=64).contains(&bytes.len()) || !is_text(bytes) {
        return false;
    }
    let mut levels = bytes.split(|b| *b == b'/').peekable();
    while let Some(level) = levels.next() {
        let plain = !level.iter().any(|b| *b == b'+' || *b == b'#');
        if !(plain || level == b"+" || level == b"#" && levels.peek().is_none()) {
            return false;
        }
    }
    true
}

fn filters(r: &mut Reader, graded: bool, found: &mut Vec<FilterOutcome>) -> Field<()> {
    found.clear();
    loop {
        if found.len() == 8 {
            return r.end();
        }
        let (place, length) = r.text(8, is_filter)?;
        let qos = if graded {
            let at = r.at;
            match r.byte()? {
                qos @ 0..=2 => qos,
                _ => return Err((9, at)),
            }
        } else {
            3
        };
        found.push(FilterOutcome { present: 1, qos, place, length });
        if !r.more() {
            return Ok(());
        }
    }
}

fn codes(r: &mut Reader) -> Field<usize> {
    for count in 0.. {
        if count == 8 {
            r.end()?;
        }
        if count > 0 && !r.more() {
            return Ok(count);
        }
        let at = r.at;
        if !matches!(r.byte()?, 0..=2 | 0x80) {
            return Err((9, at));
        }
    }
    unreachable!()
}

fn connect(r: &mut Reader, out: &mut ReadOutcome) -> Field<()> {
    let at = r.at;
    if r.take(6)? != b"\x00\x04MQTT" {
        return Err((3, at));
    }
    if r.byte()? != 4 {
        out.packet_type = FIRST_LEVEL;
        return Ok(());
    }
    let at = r.at;
    if r.byte()? != 0 {
        return Err((4, at));
    }
    r.take(2)?;
    (out.place, out.length) = r.text(5, is_text)?;
    r.end()
}

fn connack(r: &mut Reader, out: &mut ReadOutcome) -> Field<()> {
    let at = r.at;
    out.flag = r.byte()?;
    if out.flag > 1 {
        return Err((4, at));
    }
    let at = r.at;
    out.grade = r.byte()?;
    if out.grade > 5 {
        return Err((9, at));
    }
    r.end()
}

fn publish(r: &mut Reader, flags: u8, out: &mut ReadOutcome) -> Field<()> {
    out.flag = flags >> 3;
    out.grade = flags >> 1 & 3;
    (out.place, out.length) = r.text(6, is_name)?;
    if out.grade > 0 {
        out.id = r.id()?;
    }
    out.payload_place = r.at;
    out.payload_length = r.packet.len() - r.at;
    if out.payload_length > 256 { Err((10, r.at)) } else { Ok(()) }
}

fn body(r: &mut Reader, flags: u8, out: &mut ReadOutcome, found: &mut Vec<FilterOutcome>) -> Field<()> {
    match out.packet_type {
        1 => connect(r, out),
        2 => connack(r, out),
        3 => publish(r, flags, out),
        4 | 5 | 6 | 7 | 11 => {
            out.id = r.id()?;
            r.end()
        }
        8 | 10 => {
            out.id = r.id()?;
            filters(r, out.packet_type == 8, found)
        }
        9 => {
            out.id = r.id()?;
            out.length = codes(r)?;
            Ok(())
        }
        _ => r.end(),
    }
}

// What a packet says; its filters, if it has any, are put into `found`.
pub fn read(packet: &[u8], found: &mut Vec<FilterOutcome>) -> ReadOutcome {
    found.clear();
    let bad = |field, place| ReadOutcome { field, place, ..ReadOutcome::default() };
    let parts = plain_split::split(packet);
    if parts.field != 0 {
        return bad(parts.field, parts.place);
    }
    let mut out = ReadOutcome { packet_type: parts.packet_type, ..ReadOutcome::default() };
    let mut reader = Reader { packet, at: parts.place };
    match body(&mut reader, parts.flags, &mut out, found) {
        Ok(()) => out,
        Err((field, place)) => {
            found.clear();
            bad(field, place)
        }
    }
}
