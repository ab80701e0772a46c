//! play CONFIG A B: plays two traces (docs/FORMATS.md), and prints the lines that afdx_play prints, those of the frames and of
//! the ports. Memory is the standard library's.
use std::alloc::{Layout, alloc, dealloc, realloc};
use std::ffi::c_void;
use yelunnavi::{
    Code, Fault, Key, LONGEST_SAMPLE, Level, Network, Queue, QueueRoom, Reader, ReaderRoom, Receiver, ReceiverRoom, Service,
    Verdict, VerdictKind,
};

#[repr(C)]
pub struct Tried {
    ok: bool,
    at: *mut c_void,
}

/// Each sampling port is read by one reader.
const READERS: usize = 1;

/// Octets before a block, which keep how many it has.
const HEAD: usize = 16;

fn layout(octets: usize) -> Layout {
    Layout::from_size_align(octets + HEAD, HEAD).unwrap()
}

/// A block after its head, which tells its length.
fn tried(block: *mut u8, octets: usize) -> Tried {
    if block.is_null() {
        return Tried { ok: false, at: HEAD as *mut c_void };
    }
    unsafe { block.cast::<usize>().write(octets) };
    Tried { ok: true, at: unsafe { block.add(HEAD) }.cast() }
}

#[unsafe(no_mangle)]
pub extern "C" fn rattle_alloc(octets: usize, _align: usize) -> Tried {
    tried(unsafe { alloc(layout(octets)) }, octets)
}

#[unsafe(no_mangle)]
pub unsafe extern "C" fn rattle_realloc(at: *mut c_void, _kept: usize, octets: usize, _align: usize) -> Tried {
    let block = unsafe { at.cast::<u8>().sub(HEAD) };
    let old = unsafe { block.cast::<usize>().read() };
    tried(unsafe { realloc(block, layout(old), octets + HEAD) }, octets)
}

#[unsafe(no_mangle)]
pub unsafe extern "C" fn rattle_dealloc(at: *mut c_void) {
    let block = unsafe { at.cast::<u8>().sub(HEAD) };
    unsafe { dealloc(block, layout(block.cast::<usize>().read())) }
}

/// The frames of a trace of this network.
fn frames(net: Network, path: &str) -> Vec<(u64, Network, Vec<u8>)> {
    let text = std::fs::read_to_string(path).unwrap();
    let lines = text.lines().filter(|line| !line.is_empty() && !line.starts_with('#'));
    lines.map(|line| frame(net, line)).collect()
}

fn frame(net: Network, line: &str) -> (u64, Network, Vec<u8>) {
    let (time, digits) = line.split_once(' ').unwrap();
    let octet = |at: usize| u8::from_str_radix(&digits[at..at + 2], 16).unwrap();
    (time.parse().unwrap(), net, (0..digits.len()).step_by(2).map(octet).collect())
}

fn show_octets(octets: &[u8]) {
    let digits: String = octets.iter().map(|octet| format!("{octet:02x}")).collect();
    println!("{}{digits}", if octets.is_empty() { "" } else { " " });
}

fn show_frame(time: u64, net: Network, reply: &Verdict, name: &str) {
    print!("{time} {}", net.word());
    if reply.kind != VerdictKind::FILTERED {
        print!(" vl {} {}", reply.vl, reply.place);
    }
    print!(" {}", reply.kind.word());
    if let Some(cause) = reply.cause_word() {
        print!(" {cause}");
    }
    if reply.kind.names_port() {
        print!(" {name}");
    }
    if reply.kind == VerdictKind::SAMPLED {
        print!(" {}", reply.number);
    }
    println!();
}

fn show_sampling(reader: &mut Reader, name: &str, now: u64) {
    let mut out = [0; LONGEST_SAMPLE];
    let read = reader.read(now, &mut out).unwrap();
    if read.found != 1 {
        return println!("port {name} sampling empty");
    }
    let state = if read.valid == 1 { "fresh" } else { "stale" };
    print!("port {name} sampling {} {} {} {state}", read.number, read.time, read.len);
    show_octets(&out[..read.len]);
}

fn show_queue(queue: &mut Queue, name: &str) {
    let mut messages = Vec::new();
    let mut out = vec![0; queue.longest().unwrap()];
    while let Ok(taken) = queue.take(&mut out) && taken.found == 1 {
        messages.push((taken.time, out[..taken.len].to_vec()));
    }
    println!("port {name} queuing {}", messages.len());
    for (time, octets) in messages {
        print!("message {name} {time} {}", octets.len());
        show_octets(&octets);
    }
}

/// The names and services of all ports of a link.
fn ports(receiver: &mut Receiver, link: usize) -> Vec<(String, Service)> {
    let count = receiver.link(link).unwrap().ports;
    let port = |at| receiver.port(link, at).unwrap();
    let named = |(port, name): (yelunnavi::Port, [u8; 16])| (String::from_utf8_lossy(&name[..port.name_len]).into(), port.service);
    (0..count).map(port).map(named).collect()
}

/// The fault of the configuration, as afdx_play words it, where it stands, and what is allowed.
fn show_fault(fault: &Fault) {
    eprint!("play: {fault}");
    if fault.level != Level::DOCUMENT {
        eprint!(", link {}", fault.link);
    }
    if fault.level == Level::PORT {
        eprint!(", port {}", fault.port);
    }
    if fault.line > 0 {
        eprint!(", line {}", fault.line);
    }
    if fault.key != Key::NONE {
        eprint!(" ({}: {})", fault.key.word(), fault.key.allowed());
    }
    eprintln!();
}

fn main() {
    let words: Vec<String> = std::env::args().collect();
    let mut room = ReceiverRoom::new();
    let mut receiver = Receiver::new(&mut room).expect("room");
    if let Err((code, fault)) = receiver.open(&std::fs::read(&words[1]).unwrap(), READERS) {
        if code == Code::FAULTY {
            show_fault(&fault);
        }
        eprintln!("play: {}", code.word());
        std::process::exit(1);
    }
    let links: Vec<_> = (0..receiver.links().unwrap()).map(|link| ports(&mut receiver, link)).collect();
    let mut all = [frames(Network::A, &words[2]), frames(Network::B, &words[3])].concat();
    all.sort_by_key(|(time, net, _)| (*time, net.0));
    for (time, net, octets) in &all {
        let reply = receiver.receive(*net, *time, octets).unwrap();
        let name = links[reply.link].get(reply.port as usize).map_or("", |(name, _)| name);
        show_frame(*time, *net, &reply, name);
    }
    let now = all.last().map_or(0, |(time, _, _)| *time);
    for (name, service) in links.iter().flatten() {
        if *service == Service::SAMPLING {
            let mut room = ReaderRoom::new();
            let mut reader = Reader::new(&mut room).expect("room");
            receiver.hand_reader(&mut reader, name.as_bytes()).unwrap();
            std::thread::scope(|scope| scope.spawn(|| show_sampling(&mut reader, name, now)).join()).unwrap();
        } else {
            let mut room = QueueRoom::new();
            let mut queue = Queue::new(&mut room).expect("room");
            receiver.hand_queue(&mut queue, name.as_bytes()).unwrap();
            std::thread::scope(|scope| scope.spawn(|| show_queue(&mut queue, name)).join()).unwrap();
        }
    }
}
