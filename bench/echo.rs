//! What a device's socket costs with nothing behind it: sockets over epoll that answer each datagram with its first
//! nine bytes. `bench/fleet.py` compiles and measures it beside `lwbench fleet`.
//!
//!     rustc -O -o echo bench/echo.rs; ./echo PORT SOCKETS
use std::net::UdpSocket;
use std::os::fd::AsRawFd;

#[repr(C, packed)]
#[derive(Clone, Copy)]
struct Event {
    events: u32,
    data: u64,
}

extern "C" {
    fn epoll_create1(flags: i32) -> i32;
    fn epoll_ctl(epoll: i32, op: i32, fd: i32, event: *mut Event) -> i32;
    fn epoll_wait(epoll: i32, events: *mut Event, most: i32, timeout: i32) -> i32;
}

const ADD: i32 = 1;
/// Readable, told at each change alone, as mio asks for it.
const IN_AT_EDGES: u32 = 1 | 1 << 31;
const REPLY: usize = 9;

fn main() {
    let words: Vec<u16> = std::env::args().skip(1).map(|it| it.parse().expect("a number")).collect();
    let (port, count) = (words[0], words[1]);
    let sockets: Vec<UdpSocket> = (0..count)
        .map(|at| UdpSocket::bind(("127.0.0.1", port + at)).expect("a port"))
        .collect();
    let epoll = unsafe { epoll_create1(0) };
    for (at, socket) in sockets.iter().enumerate() {
        socket.set_nonblocking(true).expect("a socket");
        let mut event = Event { events: IN_AT_EDGES, data: at as u64 };
        assert_eq!(unsafe { epoll_ctl(epoll, ADD, socket.as_raw_fd(), &mut event) }, 0);
    }
    eprintln!("echo: ready");
    let mut events = [Event { events: 0, data: 0 }; 1024];
    let mut bytes = [0; 1500];
    loop {
        let named = unsafe { epoll_wait(epoll, events.as_mut_ptr(), 1024, -1) };
        for event in &events[..named.max(0) as usize] {
            let socket = &sockets[event.data as usize];
            while let Ok((length, peer)) = socket.recv_from(&mut bytes) {
                let _ = socket.send_to(&bytes[..length.min(REPLY)], peer);
            }
        }
    }
}
