//! A plain server of the same frames: each connection has a thread, which answers each request with the same reply of 27
//! bytes, a CoverageIs, and reads and writes as `covd serve` does: `echo ADDR`.
use std::io::{self, Read, Write};
use std::net::{TcpListener, TcpStream};
use std::{env, thread};

const REPLY: [u8; 27] = [
    0, 0, 0, 23, 0x85, 0, 0, 0, 0, 0, 0, 0, 0, 0, 0x0F, 0x42, 0x40, 1, 0, 0, 0, 0, 2, 0, 0, 0, 2,
];

fn serve(mut peer: TcpStream) -> io::Result<()> {
    peer.set_nodelay(true)?;
    let mut held = vec![0; 1 << 20 | 1 << 10];
    let mut have = 0;
    loop {
        let got = peer.read(&mut held[have..])?;
        if got == 0 {
            return Ok(());
        }
        have += got;
        let mut from = 0;
        while have - from >= 4 {
            let length = u32::from_be_bytes(held[from..from + 4].try_into().expect("four bytes")) as usize;
            if have - from < 4 + length {
                break;
            }
            peer.write_all(&REPLY)?;
            from += 4 + length;
        }
        held.copy_within(from..have, 0);
        have -= from;
    }
}

fn main() -> io::Result<()> {
    let address = env::args().nth(1).expect("an address");
    let listener = TcpListener::bind(&address)?;
    println!("listening {address}");
    for peer in listener.incoming() {
        let peer = peer?;
        thread::spawn(move || serve(peer));
    }
    Ok(())
}
