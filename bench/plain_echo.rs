//! What a datagram costs that is sent back as it came, in plain Rust: `plain_echo <port> <count>` sends back so many datagrams
//! from a port of 127.0.0.1. Without arguments two sockets of this machine send each other a few, and it prints how many came
//! back.

use std::net::{Ipv4Addr, UdpSocket};
use std::{env, io};

/// The room for a datagram: none is longer.
const ROOM: usize = 65536;

/// How many datagrams are sent where no arguments ask for more.
const FEW: u32 = 4;

fn socket_at(port: u16) -> io::Result<UdpSocket> {
    UdpSocket::bind((Ipv4Addr::LOCALHOST, port))
}

fn echo(socket: &UdpSocket, count: u32) -> io::Result<()> {
    let mut octets = [0; ROOM];
    for _ in 0..count {
        let (length, peer) = socket.recv_from(&mut octets)?;
        socket.send_to(&octets[..length], peer)?;
    }
    Ok(())
}

fn echo_few() -> io::Result<u32> {
    let (socket, phone) = (socket_at(0)?, socket_at(0)?);
    phone.connect(socket.local_addr()?)?;
    let mut came_back = 0;
    for _ in 0..FEW {
        phone.send(b"hello")?;
        echo(&socket, 1)?;
        came_back += u32::from(phone.recv(&mut [0; 8])? == 5);
    }
    Ok(came_back)
}

/// The port and the count that the program was given.
fn asked() -> Option<(u16, u32)> {
    let mut words = env::args().skip(1);
    Some((words.next()?.parse().ok()?, words.next()?.parse().ok()?))
}

fn main() -> io::Result<()> {
    if let Some((port, count)) = asked() {
        return echo(&socket_at(port)?, count);
    }
    let came_back = echo_few()?;
    println!("{FEW} datagrams were sent, {came_back} came back");
    Ok(())
}
