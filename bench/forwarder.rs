//! Forwards datagrams between two addresses of loopback, each way by a thread: what a gateway costs at the least.
//!
//! usage: forwarder OLD_PORT OLD_PEER NEW_PORT NEW_PEER
use std::net::UdpSocket;

fn socket(port: &str, peer: &str) -> UdpSocket {
    let socket = UdpSocket::bind(format!("127.0.0.1:{port}")).expect("a port of its own");
    socket.connect(format!("127.0.0.1:{peer}")).expect("a peer");
    socket
}

fn forward(from: &UdpSocket, to: &UdpSocket) {
    let mut buffer = vec![0; 65_536];
    loop {
        if let Ok(length) = from.recv(&mut buffer) {
            let _ = to.send(&buffer[..length]);
        }
    }
}

fn main() {
    let words: Vec<String> = std::env::args().skip(1).collect();
    let (old, new) = (socket(&words[0], &words[1]), socket(&words[2], &words[3]));
    std::thread::scope(|scope| {
        scope.spawn(|| forward(&old, &new));
        forward(&new, &old);
    });
}
