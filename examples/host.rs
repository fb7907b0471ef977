// The host of host.c in Rust: the same calls, the same print. The structs are those of include/grugavorn.h, field for
// field; here the library's own calls are made, with the node by value.
#![allow(dead_code)]

// the figures of the header: places, rows of the store, access points, octets of a name, octets of the least reply
// buffer, of what a G-PDU has before its packet, and of a record
const PLACES: usize = 64;
const KEPT: usize = 32;
const POINTS: usize = 4;
const NAME: usize = 63;
const REPLY: usize = 128;
const HEAD: usize = 8;
const RECORD: usize = 48;
// the state of a free record
const FREE: u8 = 0;

#[repr(C)]
#[derive(Clone, Copy)]
struct Point {
    name: [u8; NAME],
    size: u8,
    guarantee: u16,
    ceiling: u16,
}

#[repr(C)]
#[derive(Clone, Copy)]
struct Plan {
    control: u32,
    user: u32,
    pool: u32,
    recovery: u8,
    resend: u8,
    sends: u8,
    interval: u8,
    count: u8,
    points: [Point; POINTS],
}

#[repr(C)]
#[derive(Clone, Copy)]
struct Request {
    timer: u8,
    sends: u8,
    number: u32,
}

#[repr(C)]
#[derive(Clone, Copy)]
struct Session {
    imsi: u64,
    usage: u32,
    control: u32,
    controladdr: u32,
    user: u32,
    useraddr: u32,
    created: u32,
    own: Request,
    state: u8,
    point: u8,
    ebi: u8,
}

#[repr(C)]
#[derive(Clone, Copy)]
struct Kept {
    r#type: u8,
    sequence: [u8; 3],
    teid: [u8; 4],
    life: u8,
    number: u8,
    size: u8,
    reply: [u8; REPLY],
}

#[repr(C)]
#[derive(Clone, Copy)]
struct Node {
    plan: Plan,
    echo: Request,
    next: u32,
    heard: u8,
    recovery: u8,
}

#[repr(C)]
struct Left {
    number: u8,
    size: usize,
    node: Node,
    from: usize,
    to: usize,
}

#[repr(C)]
struct Handed {
    number: u8,
    place: usize,
    size: usize,
    start: usize,
    octets: usize,
}

#[repr(C)]
struct Written {
    number: u8,
    place: usize,
    size: usize,
    peer: u32,
}

// the library's layout
const _: () = {
    use std::mem::{offset_of, size_of};
    assert!(size_of::<Point>() == 68 && offset_of!(Point, size) == 63 && offset_of!(Point, guarantee) == 64 && offset_of!(Point, ceiling) == 66);
    assert!(size_of::<Plan>() == 292 && offset_of!(Plan, recovery) == 12 && offset_of!(Plan, count) == 16 && offset_of!(Plan, points) == 18);
    assert!(size_of::<Request>() == 8 && offset_of!(Request, sends) == 1 && offset_of!(Request, number) == 4);
    assert!(size_of::<Session>() == RECORD && offset_of!(Session, usage) == 8 && offset_of!(Session, own) == 32 && offset_of!(Session, state) == 40);
    assert!(size_of::<Kept>() == 139 && offset_of!(Kept, sequence) == 1 && offset_of!(Kept, teid) == 4 && offset_of!(Kept, life) == 8);
    assert!(offset_of!(Kept, number) == 9 && offset_of!(Kept, size) == 10 && offset_of!(Kept, reply) == 11);
    assert!(size_of::<Node>() == 308 && offset_of!(Node, echo) == 292 && offset_of!(Node, next) == 300 && offset_of!(Node, recovery) == 305);
    assert!(size_of::<Left>() == 344 && offset_of!(Left, size) == 8 && offset_of!(Left, node) == 16);
    assert!(offset_of!(Left, from) == 328 && offset_of!(Left, to) == 336);
    assert!(size_of::<Handed>() == 40 && offset_of!(Handed, place) == 8 && offset_of!(Handed, octets) == 32);
    assert!(size_of::<Written>() == 32 && offset_of!(Written, place) == 8 && offset_of!(Written, size) == 16 && offset_of!(Written, peer) == 24);
};

extern "C" {
    fn grugavorn_fresh(plan: Plan, records: *mut Session, count: usize, store: *mut Kept, rows: usize) -> Left;
    fn grugavorn_control(
        node: Node, records: *mut Session, count: usize, store: *mut Kept, rows: usize, datagram: *const u8, length: usize, reply: *mut u8, room: usize,
    ) -> Left;
    fn grugavorn_user(
        node: Node, records: *const Session, count: usize, store: *const Kept, rows: usize, datagram: *const u8, length: usize, reply: *mut u8, room: usize,
    ) -> Handed;
    fn grugavorn_down(
        node: Node, records: *const Session, count: usize, store: *const Kept, rows: usize, packet: *const u8, length: usize, out: *mut u8, room: usize,
    ) -> Written;
    fn grugavorn_tick(node: Node, records: *mut Session, count: usize, store: *mut Kept, rows: usize) -> Left;
    fn grugavorn_send(node: Node, records: *mut Session, count: usize, store: *const Kept, rows: usize, reply: *mut u8, room: usize) -> Left;
    fn grugavorn_line(node: Node, records: *const Session, count: usize, store: *const Kept, rows: usize, place: usize, reply: *mut u8, room: usize) -> Left;
    fn grugavorn_close(node: Node, records: *mut Session, count: usize, store: *const Kept, rows: usize, place: usize) -> Left;
    fn grugavorn_peer(records: *const Session, count: usize, place: usize) -> u32;
    fn grugavorn_address(node: Node, place: usize) -> u32;
}

// The unit as a Rust host has it: records, store, node and reply buffer in one place. Each call's slices give the library
// pointer and count, so that what it takes on trust of its caller always holds.
struct Unit {
    records: [Session; PLACES],
    store: [Kept; KEPT],
    node: Node,
    reply: [u8; REPLY],
    // the places whose records the last call may have changed
    changed: std::ops::Range<usize>,
}

const IDLE: Request = Request { timer: 0, sends: 0, number: 0 };
const NOBODY: Session = Session { imsi: 0, usage: 0, control: 0, controladdr: 0, user: 0, useraddr: 0, created: 0, own: IDLE, state: FREE, point: 0, ebi: 0 };
const UNUSED: Kept = Kept { r#type: 0, sequence: [0; 3], teid: [0; 4], life: 0, number: 0, size: 0, reply: [0; REPLY] };

impl Unit {
    fn fresh(plan: Plan) -> (Self, u8) {
        let mut records = [NOBODY; PLACES];
        let mut store = [UNUSED; KEPT];
        let a = unsafe { grugavorn_fresh(plan, records.as_mut_ptr(), records.len(), store.as_mut_ptr(), store.len()) };
        (Unit { records, store, node: a.node, reply: [0; REPLY], changed: a.from..a.to }, a.number)
    }
    fn keep(&mut self, a: Left) -> (u8, &[u8]) {
        self.node = a.node;
        self.changed = a.from..a.to;
        (a.number, &self.reply[..a.size])
    }
    fn control(&mut self, d: &[u8]) -> (u8, &[u8]) {
        let (records, store, reply) = (self.records.as_mut_ptr(), self.store.as_mut_ptr(), self.reply.as_mut_ptr());
        let a = unsafe { grugavorn_control(self.node, records, PLACES, store, KEPT, d.as_ptr(), d.len(), reply, REPLY) };
        self.keep(a)
    }
    fn user<'a>(&mut self, d: &'a [u8]) -> (u8, usize, &'a [u8]) {
        let (records, store, reply) = (self.records.as_ptr(), self.store.as_ptr(), self.reply.as_mut_ptr());
        let h = unsafe { grugavorn_user(self.node, records, PLACES, store, KEPT, d.as_ptr(), d.len(), reply, REPLY) };
        (h.number, h.place, &d[h.start..h.start + h.octets])
    }
    // the G-PDU in `out`, and the peer's user address; empty and 0 where the packet is refused
    fn down<'a>(&self, packet: &[u8], out: &'a mut [u8]) -> (u8, &'a [u8], u32) {
        let (records, store) = (self.records.as_ptr(), self.store.as_ptr());
        let w = unsafe { grugavorn_down(self.node, records, PLACES, store, KEPT, packet.as_ptr(), packet.len(), out.as_mut_ptr(), out.len()) };
        (w.number, &out[..w.size], w.peer)
    }
    fn tick(&mut self) -> (u8, &[u8]) {
        let a = unsafe { grugavorn_tick(self.node, self.records.as_mut_ptr(), PLACES, self.store.as_mut_ptr(), KEPT) };
        self.keep(a)
    }
    fn send(&mut self) -> (u8, &[u8]) {
        let a = unsafe { grugavorn_send(self.node, self.records.as_mut_ptr(), PLACES, self.store.as_ptr(), KEPT, self.reply.as_mut_ptr(), REPLY) };
        self.keep(a)
    }
    fn line(&mut self, place: usize) -> (u8, &[u8]) {
        let a = unsafe { grugavorn_line(self.node, self.records.as_ptr(), PLACES, self.store.as_ptr(), KEPT, place, self.reply.as_mut_ptr(), REPLY) };
        self.keep(a)
    }
    fn close(&mut self, place: usize) -> (u8, &[u8]) {
        let a = unsafe { grugavorn_close(self.node, self.records.as_mut_ptr(), PLACES, self.store.as_ptr(), KEPT, place) };
        self.keep(a)
    }
    fn peer(&self, place: usize) -> u32 {
        unsafe { grugavorn_peer(self.records.as_ptr(), PLACES, place) }
    }
    fn address(&self, place: usize) -> u32 {
        unsafe { grugavorn_address(self.node, place) }
    }
}

fn show(call: &str, number: u8, octets: &[u8]) {
    let hex: String = octets.iter().map(|o| format!("{o:02X}")).collect();
    println!("{call} {number} {}", if hex.is_empty() { "-" } else { &hex });
}

// a Create of IMSI 440101234567890, EBI 5, for the access point "data"
const CREATE: [u8; 113] = [
    0x48, 0x20, 0x00, 0x6D, 0, 0, 0, 0, 0, 0, 1, 0,
    1, 0, 8, 0, 0x44, 0x10, 0x10, 0x32, 0x54, 0x76, 0x98, 0xF0,
    82, 0, 1, 0, 6,
    87, 0, 9, 0, 0x86, 0, 0, 0x11, 0x11, 10, 1, 0, 8,
    71, 0, 5, 0, 4, b'd', b'a', b't', b'a',
    79, 0, 5, 0, 1, 0, 0, 0, 0,
    93, 0, 44, 0,
    73, 0, 1, 0, 5,
    87, 0, 9, 2, 0x84, 0, 0, 0x22, 0x22, 10, 1, 0, 9,
    80, 0, 22, 0, 0x61, 9, 0, 0, 0, 0, 0, 0, 0, 0, 0, 0, 0, 0, 0, 0, 0, 0, 0, 0, 0, 0,
    3, 0, 1, 0, 3,
];

// a G-PDU for place 0 in its first use, with four octets of payload
const PACKET: [u8; 12] = [0x30, 0xFF, 0, 4, 0, 0, 1, 0x80, 0x45, 0, 0, 0];

// an IPv4 packet of 24 octets from the carrier's side, for the address of place 0
const DOWN: [u8; 24] = [0x45, 0, 0, 24, 0, 0, 0, 0, 64, 17, 0, 0, 198, 51, 100, 7, 100, 64, 0, 1, b'd', b'o', b'w', b'n'];

// a Delete of the session of place 0 in its first use
const BYE: [u8; 12] = [0x48, 36, 0, 8, 0, 0, 1, 0, 0, 0, 2, 0];

// the echo of document 01's whole case
const ECHO: [u8; 13] = [0x40, 0x01, 0, 9, 0, 0, 1, 0, 3, 0, 1, 0, 5];

// as the bench prints: number and reply parted by a tab
fn print_answer(number: u8, octets: &[u8]) {
    let hex: String = octets.iter().map(|o| format!("{o:02X}")).collect();
    println!("{number}\t{}", if hex.is_empty() { "-" } else { &hex });
}

fn main() {
    let mut name = [0u8; NAME];
    name[..5].copy_from_slice(b"\x04data");
    let data = Point { name, size: 5, guarantee: 1, ceiling: PLACES as u16 };
    let none = Point { name: [0; NAME], size: 0, guarantee: 0, ceiling: 0 };
    let mut points = [none; POINTS];
    points[0] = data;
    let plan = Plan {
        control: 0x0A000001,
        user: 0x0A000002,
        pool: 0x64400000,
        recovery: 7,
        resend: 3,
        sends: 2,
        interval: 60,
        count: 1,
        points,
    };
    let (mut unit, number) = Unit::fresh(plan);
    show("fresh", number, &[]);
    let (number, reply) = unit.control(&CREATE);
    show("control", number, reply);
    for place in unit.changed.clone() {
        println!("place {place} has {:08X}", unit.address(place));
    }
    let (number, place, payload) = unit.user(&PACKET);
    show("user", number, payload);
    let mut out = [0; 1500 + HEAD];
    let (number, gpdu, peer) = unit.down(&DOWN, &mut out);
    show("down", number, gpdu);
    println!("to {peer:08X}");
    let (number, line) = unit.line(place);
    println!("line {number} {}", String::from_utf8_lossy(line));
    let (number, reply) = unit.close(place);
    show("close", number, reply);
    let (number, reply) = unit.send();
    show("send", number, reply);
    if !unit.changed.is_empty() {
        println!("to {:08X}", unit.peer(unit.changed.start));
    }
    let (number, reply) = unit.send();
    show("send", number, reply);
    let (number, reply) = unit.tick();
    show("tick", number, reply);
    for _ in 0..2 {
        let (number, reply) = unit.control(&BYE);
        show("control", number, reply);
    }

    // the whole case of document 01, on a fresh unit
    let (mut unit, _) = Unit::fresh(plan);
    let (number, reply) = unit.control(&ECHO);
    print_answer(number, reply);
    let (number, reply) = unit.close(0);
    print_answer(number, reply);
    println!("L\t{}", unit.records.iter().filter(|r| r.state != FREE).count());
}
