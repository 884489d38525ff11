// What a plain Rust program takes for the work of `replay`: the same log for the schedules of `make`, without any
// proof, for bench/large.py to set beside the program. It knows the lines that `make` writes and the acts that they
// lead to (no restarts, rendezvous or relays), and refuses nothing. Frames are octets on a copy, as in the program.
// `rustc --edition 2021 -O -o plain_replay bench/plain_replay.rs`; `plain_replay < SCHEDULE`.
use std::collections::{HashMap, VecDeque};
use std::fmt::Write as _;
use std::io::{self, Read, Write};

type Flow = (u32, u16, u32, u16);

struct Params {
    mpl: u64,
    r: u64,
    a: u64,
    rto: u64,
    seg: usize,
    cap: usize,
    rcap: usize,
    window: u32,
}

struct Segment {
    offset: u32,
    octets: Vec<u8>,
    first: u64,
    last: u64,
}

struct Sender {
    flow: Flow,
    left: u32,
    edge: u32,
    touched: u64,
    outstanding: VecDeque<Segment>,
    waiting: VecDeque<Vec<u8>>,
    held: usize,
}

struct Receiver {
    flow: Flow,
    live: Option<u64>,
    expected: u32,
    due: Option<u64>,
    unread: VecDeque<(u8, u8)>,
}

#[derive(Default, Clone)]
struct Totals {
    taken: u64,
    acked: u64,
    uncertain: u64,
    given: u64,
    read: u64,
}

struct Copy {
    link: u32,
    put: u64,
    frame: Option<Vec<u8>>,
}

struct World {
    now: u64,
    params: Params,
    links: HashMap<u32, (u32, u32, u64)>,
    routes: HashMap<(u32, u32), u32>,
    senders: Vec<Sender>,
    sender_of: HashMap<Flow, usize>,
    receivers: Vec<Receiver>,
    receiver_of: HashMap<Flow, usize>,
    copies: Vec<Copy>,
    totals: Vec<(Flow, Totals)>,
    totals_of: HashMap<Flow, usize>,
    log: String,
}

const RUN: u8 = 4;
const BEGIN: u8 = 2;
const END: u8 = 1;
const DATA: u8 = 0;
const ACKNOWLEDGEMENT: u8 = 1;

fn name((a, b, c, d): Flow) -> String {
    format!("{a}:{b}>{c}:{d}")
}

fn flow_of(word: &str) -> Flow {
    let mut parts = word.split(|c| c == ':' || c == '>').map(|it| it.parse::<u32>().expect("a number"));
    let mut next = || parts.next().expect("a part");
    (next(), next() as u16, next(), next() as u16)
}

fn octets_of(hex: &str) -> Vec<u8> {
    hex.as_bytes().chunks(2).map(|it| u8::from_str_radix(std::str::from_utf8(it).expect("hex"), 16).expect("hex")).collect()
}

// kind, marks, life, flow, number, window, then the octets
fn frame(kind: u8, marks: u8, life: u32, flow: Flow, number: u32, window: u32, octets: &[u8]) -> Vec<u8> {
    let mut it = Vec::with_capacity(26 + octets.len());
    it.extend_from_slice(&[kind, marks]);
    for word in [life, flow.0, flow.2, number, window] {
        it.extend_from_slice(&word.to_be_bytes());
    }
    it.extend_from_slice(&flow.1.to_be_bytes());
    it.extend_from_slice(&flow.3.to_be_bytes());
    it.extend_from_slice(octets);
    it
}

fn word_at(frame: &[u8], at: usize) -> u32 {
    u32::from_be_bytes(frame[at..at + 4].try_into().expect("four octets"))
}

fn short_at(frame: &[u8], at: usize) -> u16 {
    u16::from_be_bytes(frame[at..at + 2].try_into().expect("two octets"))
}

impl World {
    fn tell(&mut self, station: u32, what: std::fmt::Arguments) {
        writeln!(self.log, "{} {station} {what}", self.now).expect("memory");
    }

    fn total(&mut self, flow: Flow) -> &mut Totals {
        let at = self.totals_of[&flow];
        &mut self.totals[at].1
    }

    fn put(&mut self, station: u32, to: u32, mut frame: Vec<u8>) {
        let link = self.routes[&(station, to)];
        let life = word_at(&frame, 2) - 1;
        frame[2..6].copy_from_slice(&life.to_be_bytes());
        let number = self.copies.len();
        self.tell(station, format_args!("put {link} {life} as {number}"));
        self.copies.push(Copy { link, put: self.now, frame: Some(frame) });
    }

    fn transmit(&mut self, at: usize, place: usize, is_first: bool) {
        let (now, life) = (self.now, self.params.mpl as u32);
        let sender = &mut self.senders[at];
        let (flow, left) = (sender.flow, sender.left);
        let segment = &mut sender.outstanding[place];
        segment.last = now;
        sender.touched = now;
        let (offset, length) = (segment.offset, segment.octets.len());
        let marks = BEGIN | END | if offset == left { RUN } else { 0 };
        let made = frame(DATA, marks, life, flow, offset, 0, &segment.octets);
        let letters = if offset == left { "dbe" } else { "be" };
        let verb = if is_first { "sent" } else { "resent" };
        self.tell(flow.0, format_args!("{verb} {} {offset} {length} {letters}", name(flow)));
        self.put(flow.0, flow.2, made);
    }

    fn answer(&mut self, at: usize, verb: &str, number: u32) {
        let life = self.params.mpl as u32;
        let receiver = &self.receivers[at];
        let (flow, free) = (receiver.flow, (self.params.rcap - receiver.unread.len()) as u32);
        self.tell(flow.2, format_args!("{verb} {} {number} {free}", name(flow)));
        self.put(flow.2, flow.0, frame(ACKNOWLEDGEMENT, 0, life, flow, number, free, &[]));
    }

    // one act that is due, if there is one
    fn act(&mut self, station: u32) -> bool {
        let (now, p) = (self.now, &self.params);
        let (rto, r) = (p.rto, p.r);
        let (give, send, receive) = (2 * p.mpl + p.r + p.a, 3 * p.mpl + p.r + p.a, p.mpl + p.r + p.a);
        for at in 0..self.senders.len() {
            let sender = &mut self.senders[at];
            if sender.flow.0 != station {
                continue;
            }
            let flow = sender.flow;
            if sender.outstanding.front().is_some_and(|it| now - it.first >= give) {
                let gone = sender.outstanding.pop_front().expect("one");
                sender.left = gone.offset + gone.octets.len() as u32;
                sender.held -= gone.octets.len();
                let (offset, count) = (gone.offset, gone.octets.len());
                self.total(flow).uncertain += count as u64;
                self.tell(station, format_args!("uncertain {} {offset} {count}", name(flow)));
                return true;
            }
            if sender.outstanding.is_empty() && sender.waiting.is_empty() && now - sender.touched >= send {
                self.sender_of.remove(&flow);
                self.senders.remove(at);
                for (place, it) in self.senders.iter().enumerate().skip(at) {
                    self.sender_of.insert(it.flow, place);
                }
                self.tell(station, format_args!("released {} send", name(flow)));
                return true;
            }
            if let Some(place) = (0..sender.outstanding.len()).find(|it| {
                let segment = &sender.outstanding[*it];
                now - segment.last >= rto && now - segment.first < r
            }) {
                self.transmit(at, place, false);
                return true;
            }
            let next = sender.outstanding.back().map_or(sender.left, |it| it.offset + it.octets.len() as u32);
            if sender.outstanding.len() < 64 && sender.waiting.front().is_some_and(|it| next + it.len() as u32 <= sender.edge) {
                let octets = sender.waiting.pop_front().expect("one");
                sender.outstanding.push_back(Segment { offset: next, octets, first: now, last: now });
                let place = sender.outstanding.len() - 1;
                self.transmit(at, place, true);
                return true;
            }
        }
        for at in 0..self.receivers.len() {
            let receiver = &mut self.receivers[at];
            let flow = receiver.flow;
            if flow.2 == station && receiver.live.is_some_and(|it| now - it >= receive) {
                receiver.live = None;
                receiver.due = None;
                self.tell(station, format_args!("released {} receive", name(flow)));
                return true;
            }
            if flow.2 == station && receiver.due.is_some_and(|it| it <= now) {
                receiver.due = None;
                let expected = receiver.expected;
                self.answer(at, "acked", expected);
                return true;
            }
        }
        false
    }

    fn settle(&mut self, station: u32) {
        while self.act(station) {}
    }

    fn send(&mut self, flow: Flow, octets: Vec<u8>) {
        self.settle(flow.0);
        let (now, window) = (self.now, self.params.window);
        let at = *self.sender_of.entry(flow).or_insert_with(|| {
            self.senders.push(Sender { flow, left: 0, edge: window, touched: now, outstanding: VecDeque::new(), waiting: VecDeque::new(), held: 0 });
            self.senders.len() - 1
        });
        self.totals_of.entry(flow).or_insert_with(|| {
            self.totals.push((flow, Totals::default()));
            self.totals.len() - 1
        });
        let (count, free) = (octets.len(), self.params.cap - self.senders[at].held);
        assert!(count <= free.min(self.params.seg), "a message fits into the record and a segment");
        self.senders[at].held += count;
        self.senders[at].waiting.push_back(octets);
        self.total(flow).taken += count as u64;
        self.tell(flow.0, format_args!("took {} {count}", name(flow)));
        self.settle(flow.0);
    }

    fn read(&mut self, flow: Flow, most: usize) {
        self.settle(flow.2);
        let mut octets = Vec::new();
        let mut marks = 0;
        if let Some(at) = self.receiver_of.get(&flow) {
            let unread = &mut self.receivers[*at].unread;
            while let Some((octet, mark)) = unread.front().copied() {
                if octets.len() == most || !octets.is_empty() && mark & (RUN | BEGIN) != 0 {
                    break;
                }
                unread.pop_front();
                octets.push(octet);
                marks |= mark;
                if mark & END != 0 {
                    break;
                }
            }
        }
        let mut text = String::with_capacity(2 * octets.len() + 4);
        for (mark, letter) in [(RUN, 'r'), (BEGIN, 'b'), (END, 'e')] {
            if marks & mark != 0 {
                text.push(letter);
            }
        }
        text.push(' ');
        for octet in &octets {
            write!(text, "{octet:02x}").expect("memory");
        }
        self.total(flow).read += octets.len() as u64;
        self.tell(flow.2, format_args!("read {} {text}", name(flow)));
        self.settle(flow.2);
    }

    fn arrive(&mut self, copy: usize) {
        let it = &self.copies[copy];
        let (_, station, charge) = self.links[&it.link];
        assert!(self.now - it.put <= charge, "in time");
        let frame = it.frame.clone().expect("a copy that wasn't lost");
        self.settle(station);
        if u64::from(word_at(&frame, 2)) > charge {
            let flow = (word_at(&frame, 6), short_at(&frame, 22), word_at(&frame, 10), short_at(&frame, 24));
            let (number, window) = (word_at(&frame, 14), word_at(&frame, 18));
            if frame[0] == DATA { self.data(flow, number, frame[1], &frame[26..]) } else { self.acknowledged(flow, number, window) }
        }
        self.settle(station);
    }

    fn data(&mut self, flow: Flow, number: u32, marks: u8, octets: &[u8]) {
        let at = *self.receiver_of.entry(flow).or_insert_with(|| {
            self.receivers.push(Receiver { flow, live: None, expected: 0, due: None, unread: VecDeque::new() });
            self.receivers.len() - 1
        });
        let (now, a, rcap) = (self.now, self.params.a, self.params.rcap);
        let receiver = &mut self.receivers[at];
        let fits = octets.len() <= rcap - receiver.unread.len();
        let above = receiver.live.is_none() || number.wrapping_sub(receiver.expected) as i32 > 0;
        let is_new = above && marks & RUN != 0;
        if receiver.live.is_none() && !is_new {
            return self.tell(flow.2, format_args!("dropped {}", name(flow)));
        }
        if !fits || !is_new && number != receiver.expected {
            let told = if is_new { number } else { receiver.expected };
            return self.answer(at, "replied", told);
        }
        let last = octets.len() - 1;
        for (place, octet) in octets.iter().enumerate() {
            let first = if place == 0 { marks & BEGIN | if is_new { RUN } else { 0 } } else { 0 };
            receiver.unread.push_back((*octet, first | if place == last { marks & END } else { 0 }));
        }
        receiver.expected = number.wrapping_add(octets.len() as u32);
        receiver.live = Some(now);
        receiver.due = Some(if marks & END != 0 || receiver.due.is_some() { now } else { now + a });
        self.total(flow).given += octets.len() as u64;
        let run = if is_new { "run" } else { "on" };
        self.tell(flow.2, format_args!("accepted {} {number} {} {run}", name(flow), octets.len()));
    }

    fn acknowledged(&mut self, flow: Flow, number: u32, window: u32) {
        let Some(at) = self.sender_of.get(&flow).copied() else { return };
        let sender = &mut self.senders[at];
        let known = number == sender.left || sender.outstanding.iter().any(|it| it.offset + it.octets.len() as u32 == number);
        if !known {
            return;
        }
        let count = (number - sender.left) as usize;
        while sender.outstanding.front().is_some_and(|it| it.offset != number && it.offset < number) {
            sender.outstanding.pop_front();
        }
        sender.left = number;
        sender.edge = number + window;
        sender.held -= count;
        self.total(flow).acked += count as u64;
        self.tell(flow.0, format_args!("settled {} {count} {window}", name(flow)));
    }

    fn does(&mut self, line: &str) {
        let words: Vec<&str> = line.split(' ').collect();
        let number = |at: usize| words[at].parse::<u64>().expect("a number");
        match words[0] {
            "send" => self.send(flow_of(words[1]), octets_of(words[3])),
            "read" => self.read(flow_of(words[1]), number(2) as usize),
            "pass" => self.now += number(1),
            "tick" => self.settle(number(1) as u32),
            "arrive" => self.arrive(number(1) as usize),
            "lose" => {
                self.copies[number(1) as usize].frame = None;
                writeln!(self.log, "{} lost {}", self.now, words[1]).expect("memory");
            }
            "link" => drop(self.links.insert(number(1) as u32, (number(2) as u32, number(3) as u32, number(4)))),
            "route" => drop(self.routes.insert((number(1) as u32, number(2) as u32), number(3) as u32)),
            _ => (),
        }
    }
}

fn params_of(line: &str) -> Params {
    let it: Vec<u64> = line.split(' ').skip(1).map(|word| word.parse().expect("a number")).collect();
    Params { mpl: it[0], r: it[1], a: it[2], rto: it[3], seg: it[5] as usize, cap: it[6] as usize, rcap: it[7] as usize, window: it[8] as u32 }
}

fn main() -> io::Result<()> {
    let mut text = String::new();
    io::stdin().read_to_string(&mut text)?;
    let mut lines = text.lines();
    let params = params_of(lines.next().expect("parameters"));
    let mut world = World {
        now: 0,
        params,
        links: HashMap::new(),
        routes: HashMap::new(),
        senders: Vec::new(),
        sender_of: HashMap::new(),
        receivers: Vec::new(),
        receiver_of: HashMap::new(),
        copies: Vec::new(),
        totals: Vec::new(),
        totals_of: HashMap::new(),
        log: String::new(),
    };
    let mut out = io::stdout().lock();
    for line in lines {
        world.does(line);
        if world.log.len() > 1 << 16 {
            out.write_all(world.log.as_bytes())?;
            world.log.clear();
        }
    }
    for (flow, it) in &world.totals {
        let open = it.taken - it.acked - it.uncertain;
        writeln!(world.log, "flow {} taken {} acked {} uncertain {} open {open} given {} read {}", name(*flow), it.taken, it.acked, it.uncertain, it.given, it.read).expect("memory");
    }
    writeln!(world.log, "end {}", world.now).expect("memory");
    out.write_all(world.log.as_bytes())
}
