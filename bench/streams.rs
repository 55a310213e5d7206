// The plain loop that the cutters are measured beside: the same blocks in the same pieces, cut by hand.
use std::env;

const ROUNDS: usize = 164;
const BLOCK: usize = 1_638_400;
struct Tally {
    messages: u64,
    bytes: u64,
}

impl Tally {
    fn add(&mut self, body: &[u8]) {
        self.messages += 1;
        self.bytes += body.len() as u64;
    }
}

// How far a header was read, so that no byte of it is read twice.
#[derive(Clone, Copy)]
enum Reading {
    Line,
    Name(usize),
    Digits(usize),
    Value,
    LineEnd,
    End,
}

struct Header {
    reading: Reading,
    length: Option<usize>,
    read: usize,
}

const START: Header = Header { reading: Reading::Line, length: None, read: 0 };

impl Header {
    // Reads on, and answers whether the header is whole.
    fn read_on(&mut self, bytes: &[u8]) -> bool {
        while let Some(byte) = bytes.get(self.read) {
            self.read += 1;
            assert!(self.read <= 4096);
            if self.step(*byte) {
                return true;
            }
        }
        false
    }

    fn step(&mut self, byte: u8) -> bool {
        self.reading = match (self.reading, byte) {
            (Reading::Line, b'\r') => Reading::End,
            (Reading::Line, 0x21..=0x7e) if byte != b':' => Reading::Name(matched(0, byte)),
            (Reading::Name(14), b':') => {
                assert!(self.length.is_none());
                Reading::Digits(0)
            }
            (Reading::Name(_), b':') => Reading::Value,
            (Reading::Name(count), 0x21..=0x7e) => Reading::Name(matched(count, byte)),
            (Reading::Digits(0), b' ') => Reading::Digits(0),
            (Reading::Digits(count), b'0'..=b'9') => {
                let length = self.length.unwrap_or(0) * 10 + (byte - b'0') as usize;
                assert!(length <= 16_777_216 && count < 10);
                self.length = Some(length);
                Reading::Digits(count + 1)
            }
            (Reading::Digits(1..), b'\r') => Reading::LineEnd,
            (Reading::Value, b'\r') => Reading::LineEnd,
            (Reading::Value, _) if byte != b'\n' => Reading::Value,
            (Reading::LineEnd, b'\n') => Reading::Line,
            (Reading::End, b'\n') => return true,
            _ => panic!("a refused byte"),
        };
        false
    }
}

// How many bytes of the name are those of `content-length`, or 99.
fn matched(count: usize, byte: u8) -> usize {
    if b"content-length".get(count) == Some(&byte.to_ascii_lowercase()) { count + 1 } else { 99 }
}

struct Frames {
    header: Header,
    is_whole: bool,
}

impl Frames {
    fn count(&mut self, buffer: &[u8], tally: &mut Tally) -> usize {
        let mut start = 0;
        loop {
            self.is_whole = self.is_whole || self.header.read_on(&buffer[start..]);
            let end = start + self.header.read + self.header.length.unwrap_or(0);
            if !self.is_whole || buffer.len() < end {
                return start;
            }
            tally.add(&buffer[start + self.header.read..end]);
            start = end;
            self.header = START;
            self.is_whole = false;
        }
    }
}

fn count_packets(buffer: &[u8], tally: &mut Tally) -> usize {
    let mut start = 0;
    while let Some(header) = buffer.get(start..start + 11) {
        let size = u32::from_be_bytes([header[0], header[1], header[2], header[3]]) as usize;
        assert!((11..=67_108_864).contains(&size) && (header[8] == 0 || header[8] == 0x80));
        let Some(body) = buffer.get(start + 11..start + size) else { break };
        tally.add(body);
        start += size;
    }
    start
}

fn cut(one: &[u8], piece: usize, mut count: impl FnMut(&[u8], &mut Tally) -> usize) -> Tally {
    let block = one.repeat(BLOCK / one.len());
    let mut tally = Tally { messages: 0, bytes: 0 };
    let mut buffer: Vec<u8> = Vec::new();
    for _ in 0..ROUNDS {
        for part in block.chunks(piece) {
            buffer.extend_from_slice(part);
            let taken = count(&buffer, &mut tally);
            buffer.drain(..taken);
        }
    }
    tally
}

fn main() {
    let words: Vec<String> = env::args().collect();
    let piece = words[2].parse().unwrap();
    let tally = if words[1] == "frames" {
        let mut one = b"Content-Length: 177\r\n\r\n".to_vec();
        one.extend([b'x'; 177]);
        let mut frames = Frames { header: START, is_whole: false };
        cut(&one, piece, |buffer, tally| frames.count(buffer, tally))
    } else {
        let mut one = b"\0\0\0\x3c\0\0\0\x01\x80\0\0".to_vec();
        one.extend([b'x'; 49]);
        cut(&one, piece, count_packets)
    };
    println!("{} messages, {} bytes", tally.messages, tally.bytes);
}
