//! Clients of a server of frames: `load ADDR TIMES FILE ..` has a connection for each file, over which it sends the frames of
//! that file one by one, TIMES times over, each after the reply to the one before. It prints the nanoseconds from the first
//! request to the last reply, and how many replies of each tag there were.
use std::collections::BTreeMap;
use std::io::{Read, Write};
use std::net::TcpStream;
use std::sync::Barrier;
use std::time::Instant;
use std::{env, fs, thread};

fn frames(bytes: &[u8]) -> Vec<&[u8]> {
    let mut found = Vec::new();
    let mut rest = bytes;
    while !rest.is_empty() {
        let length = u32::from_be_bytes(rest[..4].try_into().expect("four bytes")) as usize;
        let (one, others) = rest.split_at(4 + length);
        found.push(one);
        rest = others;
    }
    found
}

fn client(peer: &mut TcpStream, frames: &[&[u8]], times: usize) -> BTreeMap<u8, usize> {
    let mut tags = BTreeMap::new();
    let mut reply = vec![0; 1 << 20 | 1 << 10];
    for _ in 0..times {
        for frame in frames {
            peer.write_all(frame).expect("the server takes requests");
            peer.read_exact(&mut reply[..4]).expect("the server answers");
            let length = u32::from_be_bytes(reply[..4].try_into().expect("four bytes")) as usize;
            peer.read_exact(&mut reply[..length]).expect("the server answers");
            *tags.entry(reply[0]).or_insert(0) += 1;
        }
    }
    tags
}

fn main() {
    let words: Vec<String> = env::args().skip(1).collect();
    let times = words[1].parse().expect("a number");
    let files: Vec<Vec<u8>> = words[2..].iter().map(|name| fs::read(name).expect("a file of requests")).collect();
    let ready = Barrier::new(files.len() + 1);
    let (took, all) = thread::scope(|scope| {
        let clients: Vec<_> = files
            .iter()
            .map(|bytes| {
                scope.spawn(|| {
                    let mut peer = TcpStream::connect(&words[0]).expect("a server");
                    peer.set_nodelay(true).expect("an option of the connection");
                    let frames = frames(bytes);
                    ready.wait();
                    client(&mut peer, &frames, times)
                })
            })
            .collect();
        ready.wait();
        let from = Instant::now();
        let mut all = BTreeMap::new();
        for one in clients {
            for (tag, count) in one.join().expect("no panic") {
                *all.entry(tag).or_insert(0) += count;
            }
        }
        (from.elapsed(), all)
    });
    let told: Vec<String> = all.iter().map(|(tag, count)| format!("{tag:02x}:{count}")).collect();
    println!("{} {}", took.as_nanos(), told.join(" "));
}
