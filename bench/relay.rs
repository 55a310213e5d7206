// The plain loop that `tap` is measured beside: it takes one connection, dials another, and copies both ways.
//
// usage: relay LISTEN TARGET
use std::env;
use std::io::{Read, Write};
use std::net::{Shutdown, TcpListener, TcpStream};
use std::thread;

fn copy(mut from: TcpStream, mut to: TcpStream) {
    let mut buffer = vec![0; 65536];
    loop {
        match from.read(&mut buffer) {
            Ok(0) | Err(_) => break,
            Ok(read) => {
                if to.write_all(&buffer[..read]).is_err() {
                    break;
                }
            }
        }
    }
    let _ = to.shutdown(Shutdown::Write);
}

fn main() {
    let words: Vec<String> = env::args().collect();
    let listener = TcpListener::bind(&words[1]).expect("it listens");
    let target = TcpStream::connect(&words[2]).expect("the target is there");
    let (client, _) = listener.accept().expect("a client comes");
    for stream in [&client, &target] {
        stream.set_nodelay(true).expect("small pieces go out at once");
    }
    let (there, back) = (client.try_clone().unwrap(), target.try_clone().unwrap());
    let other = thread::spawn(move || copy(back, there));
    copy(client, target);
    other.join().unwrap();
}
