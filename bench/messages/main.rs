//! The program of `main.rattle` in plain Rust, by the same tables of bytes and into records of the same shape. It takes the same
//! word and input, and prints the same rows.

use std::io::Read;
use std::time::Instant;

#[derive(Clone, Copy, Default)]
struct Peer {
    low: u32,
    high: u32,
    greatest_window: u16,
    code: u8,
    scale: Option<u8>,
}

#[derive(Clone, Copy, Default)]
struct Endpoint {
    address: u32,
    port: u16,
}

#[derive(Clone, Copy, Default)]
struct Parties {
    outside: Endpoint,
    inside: Endpoint,
}

#[derive(Clone, Copy)]
enum Direction {
    In,
    Out,
}

#[derive(Clone, Copy)]
struct Insertion {
    number: u64,
    interface: [u8; 16],
    wire: Parties,
    stack: Parties,
    maker: Peer,
    other: Peer,
    rule: Option<usize>,
    translation: Option<usize>,
    age: u32,
    remaining: u32,
    forth: (u64, u64),
    back: (u64, u64),
    creator: u32,
    protocol: u8,
    direction: Direction,
    timeout: u8,
}

#[derive(Clone, Copy)]
struct Update {
    number: u64,
    maker: Peer,
    other: Peer,
    creator: u32,
    remaining: u32,
    timeout: u8,
}

#[derive(Clone, Copy)]
struct Deletion {
    number: u64,
    creator: u32,
}

struct Message {
    checksum: [u8; 16],
    insertions: Vec<Insertion>,
    updates: Vec<Update>,
    deletions: Vec<Deletion>,
}

#[derive(Debug)]
enum Refusal {
    Short,
    Version,
    Length,
    Action(#[allow(dead_code)] u8),
    Count,
    NoEnd,
    Trailing,
    Fixed(#[allow(dead_code)] usize),
}

/// What wasn't read yet of a message, and its length.
struct Reader<'a> {
    bytes: &'a [u8],
    place: usize,
}

impl<'a> Reader<'a> {
    fn take<const N: usize>(&mut self) -> Result<[u8; N], Refusal> {
        let found = self.bytes.get(self.place..self.place + N).ok_or(Refusal::Count)?;
        self.place += N;
        Ok(found.try_into().unwrap())
    }

    fn same(&mut self, text: &[u8]) -> Result<(), Refusal> {
        for expected in text {
            let [byte] = self.take()?;
            if byte != *expected {
                return Err(Refusal::Fixed(self.place - 1));
            }
        }
        Ok(())
    }

    fn code(&mut self, allowed: impl Fn(u8) -> bool) -> Result<u8, Refusal> {
        let [byte] = self.take()?;
        if allowed(byte) { Ok(byte) } else { Err(Refusal::Fixed(self.place - 1)) }
    }

    fn u16(&mut self) -> Result<u16, Refusal> {
        Ok(u16::from_be_bytes(self.take()?))
    }

    fn u32(&mut self) -> Result<u32, Refusal> {
        Ok(u32::from_be_bytes(self.take()?))
    }

    fn u64(&mut self) -> Result<u64, Refusal> {
        Ok(u64::from_be_bytes(self.take()?))
    }

    fn peer(&mut self) -> Result<Peer, Refusal> {
        self.same(&[0; 8])?;
        let (low, high) = (self.u32()?, self.u32()?);
        self.same(&[0; 4])?;
        let greatest_window = self.u16()?;
        self.same(&[0; 2])?;
        let code = self.code(|code| code <= 10)?;
        let scale = self.code(|code| code == 0 || (128..=142).contains(&code))?;
        self.same(&[0; 6])?;
        Ok(Peer { low, high, greatest_window, code, scale: scale.checked_sub(128) })
    }

    fn parties(&mut self) -> Result<Parties, Refusal> {
        let outside = self.u32()?;
        self.same(&[0; 12])?;
        let inside = self.u32()?;
        self.same(&[0; 12])?;
        let (outside_port, inside_port) = (self.u16()?, self.u16()?);
        Ok(Parties {
            outside: Endpoint { address: outside, port: outside_port },
            inside: Endpoint { address: inside, port: inside_port },
        })
    }

    fn rule(&mut self) -> Result<Option<usize>, Refusal> {
        let code = self.u32()?;
        Ok((code != u32::MAX).then_some(code as usize))
    }

    fn name(&mut self) -> Result<[u8; 16], Refusal> {
        let start = self.place;
        let name: [u8; 16] = self.take()?;
        let mut ended = false;
        for (place, byte) in name.iter().enumerate() {
            if *byte != 0 && (ended || place == 15) {
                return Err(Refusal::Fixed(start + place));
            }
            ended = *byte == 0;
        }
        Ok(name)
    }

    fn insertion(&mut self) -> Result<Insertion, Refusal> {
        let number = self.u64()?;
        let interface = self.name()?;
        let (wire, stack) = (self.parties()?, self.parties()?);
        let (maker, other) = (self.peer()?, self.peer()?);
        self.same(&[0; 16])?;
        let rule = self.rule()?;
        self.same(&[255; 4])?;
        let translation = self.rule()?;
        let (age, remaining) = (self.u32()?, self.u32()?);
        let (packets_forth, packets_back) = (self.u64()?, self.u64()?);
        let (bytes_forth, bytes_back) = (self.u64()?, self.u64()?);
        let creator = self.u32()?;
        self.same(&[2])?;
        let [protocol] = self.take()?;
        let direction = if self.code(|code| code == 1 || code == 2)? == 1 { Direction::In } else { Direction::Out };
        self.same(&[0; 4])?;
        let timeout = self.code(|code| code < 14)?;
        self.same(&[0; 2])?;
        Ok(Insertion {
            number, interface, wire, stack, maker, other, rule, translation, age, remaining,
            forth: (packets_forth, bytes_forth), back: (packets_back, bytes_back), creator, protocol, direction, timeout,
        })
    }

    fn update(&mut self) -> Result<Update, Refusal> {
        let number = self.u64()?;
        let (maker, other) = (self.peer()?, self.peer()?);
        let (creator, remaining) = (self.u32()?, self.u32()?);
        let timeout = self.code(|code| code < 14)?;
        self.same(&[0; 3])?;
        Ok(Update { number, maker, other, creator, remaining, timeout })
    }

    fn deletion(&mut self) -> Result<Deletion, Refusal> {
        Ok(Deletion { number: self.u64()?, creator: self.u32()? })
    }

    fn head(&mut self, before: u8) -> Result<(u8, u16), Refusal> {
        if self.bytes.len() - self.place < 4 {
            return Err(Refusal::NoEnd);
        }
        let [action, pad] = self.take()?;
        if action <= before || !(matches!(action, 1 | 4 | 7) || action == 12 && before != 0) {
            return Err(Refusal::Action(action));
        }
        if pad != 0 {
            return Err(Refusal::Fixed(self.place - 1));
        }
        let count = self.u16()?;
        let size = match action {
            1 => 242,
            4 => 84,
            7 => 12,
            _ => 0,
        };
        if count == 0 || action == 12 && count != 1 || usize::from(count) * size > self.bytes.len() - self.place {
            return Err(Refusal::Count);
        }
        Ok((action, count))
    }

    fn section<R>(
        &mut self,
        kind: u8,
        head: &mut (u8, u16),
        read: impl Fn(&mut Self) -> Result<R, Refusal>,
    ) -> Result<Vec<R>, Refusal> {
        if head.0 != kind {
            return Ok(Vec::new());
        }
        let mut records = Vec::with_capacity(usize::from(head.1));
        let mut last = None;
        for _ in 0..head.1 {
            let start = self.place;
            let number = self.u64()?;
            if last.is_some_and(|last| number <= last) {
                return Err(Refusal::Fixed(start));
            }
            self.place = start;
            records.push(read(self)?);
            last = Some(number);
        }
        *head = self.head(kind)?;
        Ok(records)
    }
}

fn decode(bytes: &[u8]) -> Result<(Message, usize), Refusal> {
    if bytes.len() < 20 {
        return Err(Refusal::Short);
    }
    if bytes[0] != 5 {
        return Err(Refusal::Version);
    }
    if bytes[1] != 0 {
        return Err(Refusal::Fixed(1));
    }
    let length = usize::from(u16::from_be_bytes([bytes[2], bytes[3]]));
    if !(40..=1480).contains(&length) {
        return Err(Refusal::Length);
    }
    let bytes = bytes.get(..length).ok_or(Refusal::Short)?;
    let checksum = bytes[4..20].try_into().unwrap();
    let mut reader = Reader { bytes, place: 20 };
    let mut head = reader.head(0)?;
    let insertions = reader.section(1, &mut head, Reader::insertion)?;
    let updates = reader.section(4, &mut head, Reader::update)?;
    let deletions = reader.section(7, &mut head, Reader::deletion)?;
    if reader.place != length {
        return Err(Refusal::Trailing);
    }
    Ok((Message { checksum, insertions, updates, deletions }, length))
}

fn put_peer(out: &mut Vec<u8>, peer: &Peer) {
    out.extend_from_slice(&[0; 8]);
    out.extend_from_slice(&peer.low.to_be_bytes());
    out.extend_from_slice(&peer.high.to_be_bytes());
    out.extend_from_slice(&[0; 4]);
    out.extend_from_slice(&peer.greatest_window.to_be_bytes());
    out.extend_from_slice(&[0, 0, peer.code, peer.scale.map_or(0, |shift| 128 + shift)]);
    out.extend_from_slice(&[0; 6]);
}

fn put_parties(out: &mut Vec<u8>, parties: &Parties) {
    out.extend_from_slice(&parties.outside.address.to_be_bytes());
    out.extend_from_slice(&[0; 12]);
    out.extend_from_slice(&parties.inside.address.to_be_bytes());
    out.extend_from_slice(&[0; 12]);
    out.extend_from_slice(&parties.outside.port.to_be_bytes());
    out.extend_from_slice(&parties.inside.port.to_be_bytes());
}

fn rule_code(rule: Option<usize>) -> u32 {
    rule.map_or(u32::MAX, |rule| rule as u32)
}

fn put_insertion(out: &mut Vec<u8>, record: &Insertion) {
    out.extend_from_slice(&record.number.to_be_bytes());
    out.extend_from_slice(&record.interface);
    put_parties(out, &record.wire);
    put_parties(out, &record.stack);
    put_peer(out, &record.maker);
    put_peer(out, &record.other);
    out.extend_from_slice(&[0; 16]);
    out.extend_from_slice(&rule_code(record.rule).to_be_bytes());
    out.extend_from_slice(&[255; 4]);
    out.extend_from_slice(&rule_code(record.translation).to_be_bytes());
    out.extend_from_slice(&record.age.to_be_bytes());
    out.extend_from_slice(&record.remaining.to_be_bytes());
    out.extend_from_slice(&record.forth.0.to_be_bytes());
    out.extend_from_slice(&record.back.0.to_be_bytes());
    out.extend_from_slice(&record.forth.1.to_be_bytes());
    out.extend_from_slice(&record.back.1.to_be_bytes());
    out.extend_from_slice(&record.creator.to_be_bytes());
    let direction = match record.direction {
        Direction::In => 1,
        Direction::Out => 2,
    };
    out.extend_from_slice(&[2, record.protocol, direction, 0, 0, 0, 0, record.timeout, 0, 0]);
}

fn put_update(out: &mut Vec<u8>, record: &Update) {
    out.extend_from_slice(&record.number.to_be_bytes());
    put_peer(out, &record.maker);
    put_peer(out, &record.other);
    out.extend_from_slice(&record.creator.to_be_bytes());
    out.extend_from_slice(&record.remaining.to_be_bytes());
    out.extend_from_slice(&[record.timeout, 0, 0, 0]);
}

fn put_section<R>(out: &mut Vec<u8>, action: u8, records: &[R], put: impl Fn(&mut Vec<u8>, &R)) {
    if records.is_empty() {
        return;
    }
    out.extend_from_slice(&[action, 0]);
    out.extend_from_slice(&(records.len() as u16).to_be_bytes());
    for record in records {
        put(out, record);
    }
}

fn encode_onto(message: &Message, out: &mut Vec<u8>) {
    let section = |size: usize, count: usize| if count == 0 { 0 } else { 4 + size * count };
    let length = 24 + section(242, message.insertions.len()) + section(84, message.updates.len())
        + section(12, message.deletions.len());
    out.extend_from_slice(&[5, 0]);
    out.extend_from_slice(&(length as u16).to_be_bytes());
    out.extend_from_slice(&message.checksum);
    put_section(out, 1, &message.insertions, put_insertion);
    put_section(out, 4, &message.updates, put_update);
    put_section(out, 7, &message.deletions, |out, record| {
        out.extend_from_slice(&record.number.to_be_bytes());
        out.extend_from_slice(&record.creator.to_be_bytes());
    });
    out.extend_from_slice(&[12, 0, 0, 1]);
}

fn main() {
    let rounds: u32 = std::env::args().nth(1).and_then(|word| word.parse().ok()).unwrap_or(1);
    let mut given = Vec::new();
    std::io::stdin().read_to_end(&mut given).unwrap();
    let mut rest = given.as_slice();
    let mut spelled = Vec::new();
    while let Ok((message, length)) = decode(rest) {
        let start = Instant::now();
        let mut found = 0;
        for _ in 0..rounds {
            let (message, _) = decode(std::hint::black_box(rest)).unwrap();
            let message = std::hint::black_box(message);
            found += message.insertions.len() + message.updates.len() + message.deletions.len();
        }
        let decoding = start.elapsed().as_nanos();
        let start = Instant::now();
        let mut made = 0;
        for _ in 0..rounds {
            spelled.clear();
            encode_onto(std::hint::black_box(&message), &mut spelled);
            made += std::hint::black_box(&spelled).len();
        }
        let encoding = start.elapsed().as_nanos();
        println!("{length} {decoding} {encoding} {found} {made}");
        rest = &rest[length..];
    }
}
