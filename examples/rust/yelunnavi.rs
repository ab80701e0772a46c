//! The receiver for C, for Rust programs: a safe wrapper of one file over examples/c/yelunnavi.h, without the standard
//! library. Its types keep what the header can only ask for: each handle has room of its own that is large enough and
//! aligned, and stays where it is; a call has its handle alone (`&mut`); a handle may go to another thread, and isn't
//! shared. What is left to the program are the three functions for memory (`rattle_alloc`, ..), which several
//! threads may call at once.
#![no_std]

use core::ffi::c_void;
use core::fmt;

macro_rules! numbers {
    ($($(#[$doc:meta])* $name:ident { $($number:ident = $value:literal $word:literal),* $(,)? })*) => {
        $($(#[$doc])* #[repr(transparent)] #[derive(Clone, Copy, Debug, Default, PartialEq, Eq)]
        pub struct $name(pub u32);

        impl $name {
            $(pub const $number: $name = $name($value);)*

            /// The word that the player prints, or the number's name.
            pub const fn word(self) -> &'static str {
                match self.0 {
                    $($value => $word,)*
                    _ => "?",
                }
            }
        })*
    };
}

numbers! {
    /// Why a call did nothing, or that it did what was asked: the header says when each comes.
    Code {
        DONE = 0 "done", NOT_OPEN = 1 "not-open", ALREADY_OPEN = 2 "already-open", FAULTY = 3 "faulty",
        NO_MEMORY = 4 "no-memory", NO_NETWORK = 5 "no-network", NO_KIND = 6 "no-kind", NO_PLACE = 7 "no-place",
        NO_NAME = 8 "no-name", NONE_LEFT = 9 "none-left", HOLDS_ONE = 10 "holds-one", HOLDS_NONE = 11 "holds-none",
        OUT_OF_RANGE = 12 "out-of-range", TOO_SHORT = 13 "too-short", NOT_MADE = 14 "not-made", NO_ROOM = 15 "no-room",
        BUSY = 16 "busy", STRAY_KEY = 17 "stray-key",
    }
    /// A network.
    Network {
        A = 0 "A", B = 1 "B",
    }
    /// What became of a frame: the kind of its verdict. Those from TOO_LONG on name a port.
    VerdictKind {
        FILTERED = 0 "filtered", OUT_OF_SEQUENCE = 1 "out-of-sequence", REDUNDANT = 2 "redundant",
        BAD_HEADER = 3 "bad-header", BAD_FRAGMENT = 4 "bad-fragment", FRAGMENT_HELD = 5 "fragment-held",
        BAD_UDP = 6 "bad-udp", NO_PORT = 7 "no-port", TOO_LONG = 8 "too-long", FRAGMENTED_SAMPLE = 9 "fragmented-sample",
        SAMPLED = 10 "sampled", QUEUED = 11 "queued", OVERFLOW = 12 "overflow", EXHAUSTED = 13 "exhausted",
    }
    /// Why a frame was filtered.
    FilterCause {
        TOO_SHORT = 1 "too-short", TOO_LONG = 2 "too-long", NOT_IP = 3 "not-ip", FOREIGN_CONSTANT = 4 "foreign-constant",
        UNKNOWN_LINK = 5 "unknown-link",
    }
    /// The fault of a bad IPv4 header.
    HeaderFault {
        VERSION = 1 "version", HEADER_LENGTH = 2 "header-length", TOTAL_LENGTH = 3 "total-length", CHECKSUM = 4 "checksum",
        PROTOCOL = 5 "protocol",
    }
    /// The fault of a configuration. `{}` in its words is its key.
    ConfigFault {
        TEXT = 1 "not TOML", MISSING = 2 "missing {}", KIND = 3 "wrong kind of {}", RANGE = 4 "{} out of range",
        DOUBLE_LINK = 5 "link given twice", DOUBLE_PORT = 6 "port given twice", DOUBLE_NAME = 7 "name given twice",
        TOO_MANY = 8 "too many links or ports",
    }
    /// A key of a configuration.
    Key {
        NONE = 0 "", CONSTANT = 1 "constant", LINK = 2 "link", VL = 3 "vl", SKEW_MAX_US = 4 "skew_max_us",
        REDUNDANCY = 5 "redundancy", REASSEMBLY_US = 6 "reassembly_us", WINDOW = 7 "window", PORT = 8 "port",
        NAME = 9 "name", KIND = 10 "kind", ADDRESS = 11 "address", UDP = 12 "udp", MAX = 13 "max",
        REFRESH_US = 14 "refresh_us", DEPTH = 15 "depth", READERS = 16 "readers",
    }
    /// What a fault of a configuration is about.
    Level {
        DOCUMENT = 0 "document", LINK = 1 "link", PORT = 2 "port",
    }
    /// The service of a port.
    Service {
        SAMPLING = 1 "sampling", QUEUING = 2 "queuing",
    }
}

impl VerdictKind {
    /// Whether the reply has the place of a port.
    pub const fn names_port(self) -> bool {
        self.0 >= VerdictKind::TOO_LONG.0
    }
}

impl Key {
    /// What a configuration may have at the key: the words of `yelunnavi_key_allowed` in examples/c/yelunnavi_words.h.
    pub const fn allowed(self) -> &'static str {
        match self {
            Key::NONE => "",
            Key::CONSTANT => "a string of 8 hexadecimal digits",
            Key::LINK => "1 to 64 tables",
            Key::VL => "an integer from 0 to 65535",
            Key::SKEW_MAX_US => "an integer from 0 to 1000000",
            Key::REDUNDANCY => "true or false",
            Key::REASSEMBLY_US => "an integer from 0 to 10000000",
            Key::WINDOW => "an integer from 1 to 4",
            Key::PORT => "0 to 32 tables",
            Key::NAME => "a string of 1 to 16 of a-z 0-9 _ -",
            Key::KIND => "\"sampling\" or \"queuing\"",
            Key::ADDRESS => "a string of four numbers from 0 to 255 with dots between them",
            Key::UDP => "an integer from 0 to 65535",
            Key::MAX => "an integer from 0 to 1471 of a sampling port, 8192 of a queuing port",
            Key::REFRESH_US => "an integer from 0 to 1000000000",
            Key::DEPTH => "an integer from 1 to 64",
            Key::READERS => "an integer from 0 to 8",
            _ => "?",
        }
    }
}

/// The number of this interface: raised with each change of a struct, a call or a number.
pub const ABI: u32 = 9;
pub const MOST_LINKS: usize = 64;
/// Of a link.
pub const MOST_PORTS: usize = 32;
/// Of a sampling port.
pub const MOST_READERS: usize = 8;
/// Octets of the name of a port.
pub const LONGEST_NAME: usize = 16;
/// Octets of a message of a sampling port.
pub const LONGEST_SAMPLE: usize = 1471;
/// Octets of a message of a queuing port.
pub const LONGEST_QUEUED: usize = 8192;
/// Messages that wait in a queue.
pub const DEEPEST_QUEUE: usize = 64;

fn answer(code: Code) -> Result<(), Code> {
    if code == Code::DONE { Ok(()) } else { Err(code) }
}

macro_rules! replies {
    ($($(#[$doc:meta])* $name:ident { $($field:ident: $type:ty),* })*) => {
        $($(#[$doc])* #[repr(C)] #[derive(Clone, Copy, Debug, Default, PartialEq, Eq)]
        pub struct $name { $(pub $field: $type),* })*
    };
}

replies! {
    /// The first fault of a configuration, and the line of the text, 0 if it isn't known.
    Fault { fault: ConfigFault, key: Key, level: Level, link: usize, port: usize, line: u64 }
    /// What became of a frame. `cause` is a FilterCause of a filtered one, and a HeaderFault of one with a bad header.
    Verdict { kind: VerdictKind, cause: u32, link: usize, vl: u32, port: u32, place: u64, number: u64 }
    /// What a read or a hold found.
    Read { found: u32, valid: u32, number: u64, time: u64, len: usize }
    /// What was taken of a queue.
    Taken { found: u32, time: u64, len: usize, lost: u64 }
    /// The settings of a link, its times in microseconds. `redundancy` is 1 if redundancy management is on, else 0.
    Link { vl: u32, redundancy: u32, skew_max: u64, reassembly: u64, window: u32, ports: usize }
    /// How a link is: whether a frame came on each network, 1 or 0, when the latest did, in microseconds, and how many
    /// datagrams of which fragments came were given up.
    Health { came_a: u32, came_b: u32, latest_a: u64, latest_b: u64, given_up: u64 }
    /// How a link is, by the pass of one network: whether a frame came on that, 1 or 0, when the latest did, in microseconds;
    /// of both networks, how many frames came, and how many datagrams of which fragments came were given up.
    LinkHealth { came: u32, latest: u64, received: u64, given_up: u64 }
    /// What became of the messages for a port: how many were delivered, overflowed, were too long, or were joined of fragments
    /// where it samples; whether one was delivered, 1 or 0, and which network brought the newest, and when, in microseconds.
    PortCounts { delivered: u64, overflowed: u64, too_long: u64, fragmented: u64, came: u32, net: u32, latest: u64 }
    /// How full the queue of a port is: how many messages wait, and the greatest number that waited, counted after each
    /// message that was delivered.
    Fill { waiting: usize, greatest: usize }
    /// A port.
    Port { service: Service, address: u32, udp: u32, max: u32, limit: u64, name_len: usize }
    /// Where a port is.
    Place { link: usize, port: u32 }
    /// A link of a table: its settings, and how many of the table's ports, the next ones, are its own.
    LinkRow { vl: u32, redundancy: u32, skew_max: u64, reassembly: u64, window: u32, ports: usize }
    /// A port of a table.
    PortRow { service: Service, address: u32, udp: u32, max: u32, limit: u64, name_len: usize, name: [u8; 16], readers: u32 }
    /// What a partition has to know of its port.
    Limits { max: usize, refresh: u64 }
}

impl Verdict {
    /// The word of its cause, if it has one.
    pub const fn cause_word(&self) -> Option<&'static str> {
        match self.kind {
            VerdictKind::FILTERED => Some(FilterCause(self.cause).word()),
            VerdictKind::BAD_HEADER => Some(HeaderFault(self.cause).word()),
            _ => None,
        }
    }
}

impl fmt::Display for Fault {
    fn fmt(&self, f: &mut fmt::Formatter) -> fmt::Result {
        match self.fault.word().split_once("{}") {
            Some((before, after)) => write!(f, "{before}{}{after}", self.key.word()),
            None => f.write_str(self.fault.word()),
        }
    }
}

/// Where the room is.
#[repr(C)]
struct Handle {
    room: *mut c_void,
}

/// Where the octets of a message stand that is held, and how many there are.
#[repr(C)]
struct Held {
    at: *const u8,
    len: usize,
}

macro_rules! calls {
    ($($call:ident($($name:ident: $type:ty),*) $(-> $result:ty)?;)*) => {
        unsafe extern "C" { $(fn $call($($name: $type),*) $(-> $result)?;)* }
    };
}

calls! {
    yelunnavi_abi() -> u32;
    yelunnavi_check_text(text: *const u8, len: usize, fault: *mut Fault) -> Code;
    yelunnavi_receiver_room() -> usize;
    yelunnavi_system_room() -> usize;
    yelunnavi_pass_room() -> usize;
    yelunnavi_reader_room() -> usize;
    yelunnavi_queue_room() -> usize;
    yelunnavi_receiver_make(room: *mut c_void);
    yelunnavi_system_make(room: *mut c_void);
    yelunnavi_pass_make(room: *mut c_void);
    yelunnavi_reader_make(room: *mut c_void);
    yelunnavi_queue_make(room: *mut c_void);
    yelunnavi_receiver_open(h: *mut Handle, text: *const u8, len: usize, readers: usize, fault: *mut Fault) -> Code;
    yelunnavi_receiver_open_table(h: *mut Handle, constant: *const u8, links: *const LinkRow, links_len: usize, ports: *const PortRow, ports_len: usize, readers: usize, fault: *mut Fault) -> Code;
    yelunnavi_receiver_close(h: *mut Handle);
    yelunnavi_receiver_receive(h: *mut Handle, net: Network, now: u64, frame: *const u8, len: usize, reply: *mut Verdict) -> Code;
    yelunnavi_receiver_count(h: *mut Handle, link: usize, net: Network, kind: VerdictKind, count: *mut u64) -> Code;
    yelunnavi_receiver_filtered(h: *mut Handle, net: Network, cause: FilterCause, count: *mut u64) -> Code;
    yelunnavi_receiver_health(h: *mut Handle, link: usize, reply: *mut Health) -> Code;
    yelunnavi_receiver_port_counts(h: *mut Handle, link: usize, port: usize, reply: *mut PortCounts) -> Code;
    yelunnavi_receiver_fill(h: *mut Handle, link: usize, port: usize, reply: *mut Fill) -> Code;
    yelunnavi_receiver_links(h: *mut Handle, links: *mut usize) -> Code;
    yelunnavi_receiver_link(h: *mut Handle, link: usize, reply: *mut Link) -> Code;
    yelunnavi_receiver_port(h: *mut Handle, link: usize, port: usize, reply: *mut Port, name: *mut [u8; 16]) -> Code;
    yelunnavi_receiver_place(h: *mut Handle, name: *const u8, len: usize, reply: *mut Place) -> Code;
    yelunnavi_receiver_hand_reader(h: *mut Handle, to: *mut Handle, name: *const u8, len: usize) -> Code;
    yelunnavi_receiver_hand_queue(h: *mut Handle, to: *mut Handle, name: *const u8, len: usize) -> Code;
    yelunnavi_system_open(h: *mut Handle, text: *const u8, len: usize, readers: usize, fault: *mut Fault) -> Code;
    yelunnavi_system_open_table(h: *mut Handle, constant: *const u8, links: *const LinkRow, links_len: usize, ports: *const PortRow, ports_len: usize, readers: usize, fault: *mut Fault) -> Code;
    yelunnavi_system_close(h: *mut Handle);
    yelunnavi_system_hand_pass(h: *mut Handle, net: Network, to: *mut Handle) -> Code;
    yelunnavi_system_hand_reader(h: *mut Handle, to: *mut Handle, name: *const u8, len: usize) -> Code;
    yelunnavi_system_hand_queue(h: *mut Handle, to: *mut Handle, name: *const u8, len: usize) -> Code;
    yelunnavi_system_links(h: *mut Handle, links: *mut usize) -> Code;
    yelunnavi_system_link(h: *mut Handle, link: usize, reply: *mut Link) -> Code;
    yelunnavi_system_port(h: *mut Handle, link: usize, port: usize, reply: *mut Port, name: *mut [u8; 16]) -> Code;
    yelunnavi_system_place(h: *mut Handle, name: *const u8, len: usize, reply: *mut Place) -> Code;
    yelunnavi_pass_receive(h: *mut Handle, now: u64, frame: *const u8, len: usize, reply: *mut Verdict) -> Code;
    yelunnavi_pass_count(h: *mut Handle, link: usize, kind: VerdictKind, count: *mut u64) -> Code;
    yelunnavi_pass_health(h: *mut Handle, link: usize, reply: *mut LinkHealth) -> Code;
    yelunnavi_pass_port_counts(h: *mut Handle, link: usize, port: usize, reply: *mut PortCounts) -> Code;
    yelunnavi_pass_fill(h: *mut Handle, link: usize, port: usize, reply: *mut Fill) -> Code;
    yelunnavi_pass_filtered(h: *mut Handle, cause: FilterCause, count: *mut u64) -> Code;
    yelunnavi_pass_close(h: *mut Handle);
    yelunnavi_reader_read(h: *mut Handle, now: u64, out: *mut u8, len: usize, reply: *mut Read) -> Code;
    yelunnavi_reader_hold(h: *mut Handle, now: u64, reply: *mut Read) -> Code;
    yelunnavi_reader_octets(h: *mut Handle, octets: *mut Held) -> Code;
    yelunnavi_reader_copy(h: *mut Handle, first: usize, out: *mut u8, len: usize) -> Code;
    yelunnavi_reader_release(h: *mut Handle) -> Code;
    yelunnavi_reader_limits(h: *mut Handle, reply: *mut Limits) -> Code;
    yelunnavi_reader_close(h: *mut Handle);
    yelunnavi_queue_take(h: *mut Handle, out: *mut u8, len: usize, reply: *mut Taken) -> Code;
    yelunnavi_queue_waiting(h: *mut Handle, waiting: *mut usize) -> Code;
    yelunnavi_queue_longest(h: *mut Handle, max: *mut usize) -> Code;
    yelunnavi_queue_close(h: *mut Handle);
}

macro_rules! slots {
    ($($(#[$doc:meta])* $name:ident, $room:ident, $octets:literal, $size:ident, $make:ident, $close:ident;)*) => {
        $(
            /// Room for a slot: the program's, often a `static mut` or a local that outlives the handle.
            #[repr(C, align(16))]
            pub struct $room([u8; $octets]);

            impl $room {
                pub const fn new() -> $room {
                    $room([0; $octets])
                }
            }

            $(#[$doc])*
            pub struct $name<'a> {
                handle: Handle,
                room: core::marker::PhantomData<&'a mut $room>,
            }

            // The library proves that a handle may go to another thread.
            unsafe impl Send for $name<'_> {}

            impl<'a> $name<'a> {
                /// A slot in which nothing is open. None if this library has another interface, or needs more room.
                pub fn new(room: &'a mut $room) -> Option<$name<'a>> {
                    if unsafe { yelunnavi_abi() != ABI || $size() > $octets } {
                        return None;
                    }
                    let handle = Handle { room: (room as *mut $room).cast() };
                    unsafe { $make(handle.room) };
                    Some($name { handle, room: core::marker::PhantomData })
                }

                /// Gives away what is open in the slot.
                pub fn close(&mut self) {
                    unsafe { $close(&mut self.handle) }
                }
            }

            impl Drop for $name<'_> {
                fn drop(&mut self) {
                    self.close();
                }
            }
        )*
    };
}

slots! {
    /// The receiver, for one task.
    Receiver, ReceiverRoom, 512, yelunnavi_receiver_room, yelunnavi_receiver_make, yelunnavi_receiver_close;
    /// A receiver for two threads, one a network.
    System, SystemRoom, 1024, yelunnavi_system_room, yelunnavi_system_make, yelunnavi_system_close;
    /// The pass of a network, for its thread.
    Pass, PassRoom, 512, yelunnavi_pass_room, yelunnavi_pass_make, yelunnavi_pass_close;
    /// A reader of a sampling port, for a partition.
    Reader, ReaderRoom, 128, yelunnavi_reader_room, yelunnavi_reader_make, yelunnavi_reader_close;
    /// The end of a queue, for a partition.
    Queue, QueueRoom, 128, yelunnavi_queue_room, yelunnavi_queue_make, yelunnavi_queue_close;
}

/// A reply, if the call did what was asked.
fn told<T: Default>(call: impl FnOnce(*mut T) -> Code) -> Result<T, Code> {
    let mut reply = T::default();
    answer(call(&mut reply)).map(|()| reply)
}

/// Whether the configuration of a text has no fault, and no key that means nothing where it stands: else the code, FAULTY or
/// STRAY_KEY, and where. It opens nothing.
pub fn check_text(text: &[u8]) -> Result<(), (Code, Fault)> {
    let mut fault = Fault::default();
    answer(unsafe { yelunnavi_check_text(text.as_ptr(), text.len(), &mut fault) }).map_err(|code| (code, fault))
}

impl Receiver<'_> {
    /// Opens the receiver of a configuration, with so many readers of each sampling port, 1 to 8. All memory is taken here.
    pub fn open(&mut self, text: &[u8], readers: usize) -> Result<(), (Code, Fault)> {
        let mut fault = Fault::default();
        answer(unsafe { yelunnavi_receiver_open(&mut self.handle, text.as_ptr(), text.len(), readers, &mut fault) })
            .map_err(|code| (code, fault))
    }

    /// Opens the receiver of a table: the constant field, the links, and their ports one after another.
    pub fn open_table(&mut self, constant: [u8; 4], links: &[LinkRow], ports: &[PortRow], readers: usize) -> Result<(), (Code, Fault)> {
        let mut fault = Fault::default();
        let (of_links, of_ports) = (links.as_ptr(), ports.as_ptr());
        answer(unsafe {
            yelunnavi_receiver_open_table(&mut self.handle, constant.as_ptr(), of_links, links.len(), of_ports, ports.len(), readers, &mut fault)
        })
        .map_err(|code| (code, fault))
    }

    /// Takes a frame that came on a network at `now`, in microseconds.
    pub fn receive(&mut self, net: Network, now: u64, frame: &[u8]) -> Result<Verdict, Code> {
        told(|reply| unsafe { yelunnavi_receiver_receive(&mut self.handle, net, now, frame.as_ptr(), frame.len(), reply) })
    }

    pub fn count(&mut self, link: usize, net: Network, kind: VerdictKind) -> Result<u64, Code> {
        told(|count| unsafe { yelunnavi_receiver_count(&mut self.handle, link, net, kind, count) })
    }

    pub fn filtered(&mut self, net: Network, cause: FilterCause) -> Result<u64, Code> {
        told(|count| unsafe { yelunnavi_receiver_filtered(&mut self.handle, net, cause, count) })
    }

    pub fn health(&mut self, link: usize) -> Result<Health, Code> {
        told(|reply| unsafe { yelunnavi_receiver_health(&mut self.handle, link, reply) })
    }

    /// What became of the messages for a port.
    pub fn port_counts(&mut self, link: usize, port: usize) -> Result<PortCounts, Code> {
        told(|reply| unsafe { yelunnavi_receiver_port_counts(&mut self.handle, link, port, reply) })
    }

    /// How full the queue of a port is. NONE_LEFT if it samples.
    pub fn fill(&mut self, link: usize, port: usize) -> Result<Fill, Code> {
        told(|reply| unsafe { yelunnavi_receiver_fill(&mut self.handle, link, port, reply) })
    }

    pub fn links(&mut self) -> Result<usize, Code> {
        told(|links| unsafe { yelunnavi_receiver_links(&mut self.handle, links) })
    }

    pub fn link(&mut self, link: usize) -> Result<Link, Code> {
        told(|reply| unsafe { yelunnavi_receiver_link(&mut self.handle, link, reply) })
    }

    /// A port, and its name, which has `name_len` octets.
    pub fn port(&mut self, link: usize, port: usize) -> Result<(Port, [u8; 16]), Code> {
        let mut name = [0; 16];
        let port = told(|reply| unsafe { yelunnavi_receiver_port(&mut self.handle, link, port, reply, &mut name) })?;
        Ok((port, name))
    }

    pub fn place(&mut self, name: &[u8]) -> Result<Place, Code> {
        told(|reply| unsafe { yelunnavi_receiver_place(&mut self.handle, name.as_ptr(), name.len(), reply) })
    }

    pub fn hand_reader(&mut self, to: &mut Reader, name: &[u8]) -> Result<(), Code> {
        answer(unsafe { yelunnavi_receiver_hand_reader(&mut self.handle, &mut to.handle, name.as_ptr(), name.len()) })
    }

    pub fn hand_queue(&mut self, to: &mut Queue, name: &[u8]) -> Result<(), Code> {
        answer(unsafe { yelunnavi_receiver_hand_queue(&mut self.handle, &mut to.handle, name.as_ptr(), name.len()) })
    }
}

impl System<'_> {
    /// Opens the system of a configuration, with so many readers of each sampling port, 1 to 8. All memory is taken here.
    pub fn open(&mut self, text: &[u8], readers: usize) -> Result<(), (Code, Fault)> {
        let mut fault = Fault::default();
        answer(unsafe { yelunnavi_system_open(&mut self.handle, text.as_ptr(), text.len(), readers, &mut fault) })
            .map_err(|code| (code, fault))
    }

    /// Opens the system of a table: the constant field, the links, and their ports one after another.
    pub fn open_table(&mut self, constant: [u8; 4], links: &[LinkRow], ports: &[PortRow], readers: usize) -> Result<(), (Code, Fault)> {
        let mut fault = Fault::default();
        let (of_links, of_ports) = (links.as_ptr(), ports.as_ptr());
        answer(unsafe {
            yelunnavi_system_open_table(&mut self.handle, constant.as_ptr(), of_links, links.len(), of_ports, ports.len(), readers, &mut fault)
        })
        .map_err(|code| (code, fault))
    }

    /// Hands the pass of a network into a slot, once.
    pub fn hand_pass(&mut self, net: Network, to: &mut Pass<'_>) -> Result<(), Code> {
        answer(unsafe { yelunnavi_system_hand_pass(&mut self.handle, net, &mut to.handle) })
    }

    pub fn links(&mut self) -> Result<usize, Code> {
        told(|links| unsafe { yelunnavi_system_links(&mut self.handle, links) })
    }

    pub fn link(&mut self, link: usize) -> Result<Link, Code> {
        told(|reply| unsafe { yelunnavi_system_link(&mut self.handle, link, reply) })
    }

    /// A port, and its name, which has `name_len` octets.
    pub fn port(&mut self, link: usize, port: usize) -> Result<(Port, [u8; 16]), Code> {
        let mut name = [0; 16];
        let port = told(|reply| unsafe { yelunnavi_system_port(&mut self.handle, link, port, reply, &mut name) })?;
        Ok((port, name))
    }

    pub fn place(&mut self, name: &[u8]) -> Result<Place, Code> {
        told(|reply| unsafe { yelunnavi_system_place(&mut self.handle, name.as_ptr(), name.len(), reply) })
    }

    pub fn hand_reader(&mut self, to: &mut Reader, name: &[u8]) -> Result<(), Code> {
        answer(unsafe { yelunnavi_system_hand_reader(&mut self.handle, &mut to.handle, name.as_ptr(), name.len()) })
    }

    pub fn hand_queue(&mut self, to: &mut Queue, name: &[u8]) -> Result<(), Code> {
        answer(unsafe { yelunnavi_system_hand_queue(&mut self.handle, &mut to.handle, name.as_ptr(), name.len()) })
    }
}

impl Pass<'_> {
    /// Takes a frame that came on the network of the pass at `now`, in microseconds. BUSY: the thread of the other network has its
    /// link just now, and nothing has happened. The same frame is given again, after a yield.
    pub fn receive(&mut self, now: u64, frame: &[u8]) -> Result<Verdict, Code> {
        told(|reply| unsafe { yelunnavi_pass_receive(&mut self.handle, now, frame.as_ptr(), frame.len(), reply) })
    }

    pub fn count(&mut self, link: usize, kind: VerdictKind) -> Result<u64, Code> {
        told(|count| unsafe { yelunnavi_pass_count(&mut self.handle, link, kind, count) })
    }

    /// How the link at this place is. BUSY: the thread of the other network has it just now.
    pub fn health(&mut self, link: usize) -> Result<LinkHealth, Code> {
        told(|reply| unsafe { yelunnavi_pass_health(&mut self.handle, link, reply) })
    }

    /// What became of the messages for a port. BUSY: the thread of the other network has its link just now.
    pub fn port_counts(&mut self, link: usize, port: usize) -> Result<PortCounts, Code> {
        told(|reply| unsafe { yelunnavi_pass_port_counts(&mut self.handle, link, port, reply) })
    }

    /// How full the queue of a port is. NONE_LEFT if it samples. BUSY: the thread of the other network has its link just now.
    pub fn fill(&mut self, link: usize, port: usize) -> Result<Fill, Code> {
        told(|reply| unsafe { yelunnavi_pass_fill(&mut self.handle, link, port, reply) })
    }

    pub fn filtered(&mut self, cause: FilterCause) -> Result<u64, Code> {
        told(|count| unsafe { yelunnavi_pass_filtered(&mut self.handle, cause, count) })
    }
}

impl Reader<'_> {
    /// Reads the newest message at `now`, in microseconds.
    pub fn read(&mut self, now: u64, out: &mut [u8]) -> Result<Read, Code> {
        told(|reply| unsafe { yelunnavi_reader_read(&mut self.handle, now, out.as_mut_ptr(), out.len(), reply) })
    }

    /// Holds it, until it is released.
    pub fn hold(&mut self, now: u64) -> Result<Read, Code> {
        told(|reply| unsafe { yelunnavi_reader_hold(&mut self.handle, now, reply) })
    }

    /// The octets of the message that is held, where they stand. It can't be released while they are looked at.
    pub fn octets(&mut self) -> Result<&[u8], Code> {
        let mut held = Held { at: core::ptr::null(), len: 0 };
        answer(unsafe { yelunnavi_reader_octets(&mut self.handle, &mut held) })?;
        Ok(unsafe { core::slice::from_raw_parts(held.at, held.len) })
    }

    pub fn copy(&mut self, first: usize, out: &mut [u8]) -> Result<(), Code> {
        answer(unsafe { yelunnavi_reader_copy(&mut self.handle, first, out.as_mut_ptr(), out.len()) })
    }

    pub fn release(&mut self) -> Result<(), Code> {
        answer(unsafe { yelunnavi_reader_release(&mut self.handle) })
    }

    pub fn limits(&mut self) -> Result<Limits, Code> {
        told(|reply| unsafe { yelunnavi_reader_limits(&mut self.handle, reply) })
    }
}

impl Queue<'_> {
    /// Takes the oldest message, and tells how many overflowed right before it; `out` has to be as long as the port's longest one.
    pub fn take(&mut self, out: &mut [u8]) -> Result<Taken, Code> {
        told(|reply| unsafe { yelunnavi_queue_take(&mut self.handle, out.as_mut_ptr(), out.len(), reply) })
    }

    /// How many messages wait.
    pub fn waiting(&mut self) -> Result<usize, Code> {
        told(|waiting| unsafe { yelunnavi_queue_waiting(&mut self.handle, waiting) })
    }

    pub fn longest(&mut self) -> Result<usize, Code> {
        told(|max| unsafe { yelunnavi_queue_longest(&mut self.handle, max) })
    }
}
