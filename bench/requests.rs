// The plain loop that reading requests is measured beside: one pass over the same bodies that finds the sequence number
// and the command by hand, and copies the command.
use std::env;
use std::hint::black_box;

const BODIES: [&str; 4] = [
    r#"{"seq":1,"type":"request","command":"threads"}"#,
    r#"{"seq":2,"type":"request","command":"disconnect"}"#,
    r#"{"seq":3,"type":"request","command":"initialize","arguments":{"adapterID":"jdwp"}}"#,
    r#"{"seq":4,"type":"request","command":"attach","arguments":{"sourceRoots":["/p/src"]}}"#,
];

struct Request {
    seq: u64,
    command: String,
    depth: usize,
}

// The members of the outer object, read as far as this loop needs them.
fn read(body: &[u8]) -> Option<Request> {
    let mut request = Request { seq: 0, command: String::new(), depth: 0 };
    let mut name: &[u8] = b"";
    let (mut depth, mut i) = (0, 0);
    while i < body.len() {
        match body[i] {
            b'"' => {
                let start = i + 1;
                i = start + body[start..].iter().position(|b| *b == b'"')?;
                let text = &body[start..i];
                if depth == 1 && body.get(i + 1) == Some(&b':') {
                    name = text;
                } else if depth == 1 && name == b"command" {
                    request.command = String::from_utf8(text.to_vec()).ok()?;
                }
            }
            b'0'..=b'9' if depth == 1 && name == b"seq" => request.seq = request.seq * 10 + (body[i] - b'0') as u64,
            b'{' | b'[' => depth += 1,
            b'}' | b']' => depth -= 1,
            _ => {}
        }
        request.depth = request.depth.max(depth);
        i += 1;
    }
    Some(request)
}

fn main() {
    let count: u64 = env::args().nth(2).unwrap().parse().unwrap();
    let (mut messages, mut bytes) = (0u64, 0u64);
    for turn in 0..count {
        let body = BODIES[(turn % 4) as usize].as_bytes();
        let request = read(black_box(body)).unwrap();
        black_box((request.seq, request.command, request.depth));
        messages += 1;
        bytes += body.len() as u64;
    }
    println!("{messages} messages, {bytes} bytes");
}
