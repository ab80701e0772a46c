"""The faces of the library for C: checks/interface finds one difference that is planted in a copy."""
import re
import shutil
import subprocess

import pytest
from conftest import ROOT

from parts import faces

C, WORDS, RUST, ADA = faces.C, faces.WORDS, faces.RUST, faces.ADA
HANDLES, CALLS = [*faces.HANDLES.values()], faces.CALLS[0]
SOURCES = [*faces.CALLS, *HANDLES, faces.HELD, faces.REPLIES, faces.CODES, faces.NUMBERS, faces.VERDICTS, faces.FAULTS, faces.EXPLANATION, faces.ROWS,
           *faces.BOUNDS]
READ = [*SOURCES, C, WORDS, RUST, ADA, faces.PYTHON, faces.BODY_OF_ADA, *faces.MEMORY_OF_C, faces.MEMORY_OF_RUST,
        faces.ABI, faces.CHANGES, faces.RELEASED]
# The number of the interface, and the one after it.
NUMBER = int(re.search(r"^#define YELUNNAVI_ABI (\d+)$", (ROOT / C).read_text(encoding="ascii"), re.M)[1])
NEXT = NUMBER + 1

# A file, what stands there, what is planted in its place where it stands first, and what is told of it.
PLANTED = [
    # swapped fields
    (C, "uint32_t address; /* the IPv4 address of its datagrams: the first octet is the most significant one */\n"
        "    uint32_t udp; ",
     "uint32_t udp; uint32_t address; ", "struct PortReply"),
    (C, "size_t max;       /* the longest message of the port: an `out` of this length is always long enough */\n"
        "    uint64_t refresh; /* its refresh period */", "uint64_t refresh; size_t max;", "struct LimitReply"),
    (RUST, "address: u32, udp: u32", "udp: u32, address: u32", "struct PortReply"),
    (RUST, "skew_max: u64, reassembly: u64", "reassembly: u64, skew_max: u64", "struct LinkReply"),
    (ADA, "Skew_Max, Reassembly", "Reassembly, Skew_Max", "struct LinkReply"),
    (ADA, "Service, Address, Udp, Max", "Service, Udp, Address, Max", "struct PortReply"),
    (C, "    const uint8_t *at; /* the first */\n    size_t len;        /* how many there are */\n",
     "    size_t len;\n    const uint8_t *at;\n", "struct HeldOctets"),
    (RUST, "struct Held {\n    at: *const u8,\n    len: usize,\n", "struct Held {\n    len: usize,\n    at: *const u8,\n", "struct HeldOctets"),
    (ADA, "Where : access constant Unsigned_8; Length : size_t;", "Length : size_t; Where : access constant Unsigned_8;", "struct HeldOctets"),
    (faces.REPLIES, "    pub number: u64,\n    /// Arrival time, in microseconds.\n    pub time: u64,",
     "    pub time: u64,\n    pub number: u64,", "struct ReadReply"),
    # what the Python binding takes apart itself
    (faces.PYTHON, '"IINIIQQ"', '"IINIIQ"', "struct FrameReply"),
    (faces.PYTHON, '"IQNQ"', '"QINQ"', "struct TakeReply"),
    (faces.PYTHON, "kind, cause, link, vl, port, place, number = VERDICT(", "kind, cause, link, port, vl, place, number = VERDICT(", "struct FrameReply"),
    (faces.PYTHON, "found, valid, number, time, length = READ(", "found, valid, time, number, length = READ(", "struct ReadReply"),
    (faces.REPLIES, "to take. 1: a message.\n    pub found: u32,", "to take. 1: a message.\n    pub found: u64,", f"{faces.PYTHON}: struct TakeReply"),
    # the functions for memory
    (C, "bool ok;  /* false if there is no memory */\n    void *at; /* never null, with false too */", "void *at; bool ok;", "struct rattle_tried"),
    (C, "rattle_realloc(void *at, size_t kept, size_t octets,", "rattle_realloc(void *at, size_t octets, size_t kept,", "tools/heap.c: function rattle_realloc"),
    (C, "void rattle_dealloc(void *at);\n", "", "function rattle_dealloc: the header has none"),
    (faces.MEMORY_OF_C[0], "rattle_alloc(size_t octets, size_t align)", "rattle_alloc(size_t align, size_t octets)", "function rattle_alloc"),
    (faces.MEMORY_OF_C[1], "rattle_realloc(void *at, size_t kept, size_t octets,", "rattle_realloc(void *at, size_t octets, size_t kept,",
     "examples/c/pool.c: function rattle_realloc"),
    (faces.MEMORY_OF_RUST, "_kept: usize, octets: usize", "octets: usize, _kept: usize", "function rattle_realloc"),
    (faces.MEMORY_OF_RUST, "    ok: bool,\n    at: *mut c_void,", "    at: *mut c_void,\n    ok: bool,", "struct rattle_tried"),
    # the functions that make handles
    (C, "yelunnavi_room_code(room, octets, yelunnavi_pass_room())", "yelunnavi_room_code(room, octets, yelunnavi_reader_room())", "init of a Pass"),
    (C, "        h->room = room;\n        yelunnavi_queue_make(room);", "        yelunnavi_queue_make(room);", "init of a Taker"),
    (C, "        h->room = room;\n        yelunnavi_receiver_make(room);", "        yelunnavi_receiver_make(room);", "init of a Reader"),
    (faces.BODY_OF_ADA, "Room_Code (Room, Length, End_System_Room)", "Room_Code (Room, Length, Pass_Room)", "init of a System"),
    (C, "#define YELUNNAVI_PASS_OCTETS 512U", "#define YELUNNAVI_PASS_OCTETS 256U", "octets of the room of a Pass: 512"),
    (C, "#define YELUNNAVI_QUEUE_OCTETS 128U\n", "", "no octets of the room of a Taker"),
    (ADA, "End_System_Octets : constant size_t := 1024", "End_System_Octets : constant size_t := 512", "octets of the room of a System: 512"),
    # wrong widths, of a field, of a parameter and of a result
    (C, "uint32_t level;", "uint64_t level;", "struct FaultReply"),
    (C, "uint32_t net, uint64_t now, const uint8_t *frame", "uint32_t net, uint32_t now, const uint8_t *frame",
     "call yelunnavi_receiver_receive"),
    (C, "uint32_t yelunnavi_reader_release(", "uint64_t yelunnavi_reader_release(", "call yelunnavi_reader_release"),
    (C, "uint32_t yelunnavi_pass_filtered(", "uint64_t yelunnavi_pass_filtered(", "call yelunnavi_pass_filtered"),
    (RUST, "Taken { found: u32,", "Taken { found: u64,", "struct TakeReply"),
    (RUST, "name: *mut [u8; 16]", "name: *mut [u8; 15]", "call yelunnavi_receiver_port"),
    (RUST, "pub struct $name(pub u32);", "pub struct $name(pub u64);", "call yelunnavi_receiver_receive"),
    (ADA, "Number, Time : Unsigned_64; Length", "Number, Time : Unsigned_32; Length", "struct ReadReply"),
    (ADA, "is Octets (0 .. 15)", "is Octets (0 .. 16)", "call yelunnavi_receiver_port"),
    (faces.REPLIES, "pub vl: u32,\n    /// 1 if", "pub vl: u64,\n    /// 1 if", "struct LinkReply"),
    # missing, swapped and wrong parameters
    (C, "size_t len, size_t readers,", "size_t len,", "call yelunnavi_receiver_open"),
    (C, "size_t link, size_t port, struct yelunnavi_port *reply",
     "size_t port, size_t link, struct yelunnavi_port *reply", "call yelunnavi_receiver_port"),
    (C, "struct yelunnavi_reader *h, size_t first, uint8_t *out",
     "struct yelunnavi_reader *h, size_t first, const uint8_t *out", "call yelunnavi_reader_copy"),
    (C, "struct yelunnavi_queue *to", "struct yelunnavi_reader *to", "call yelunnavi_receiver_hand_queue"),
    (RUST, "len: usize, readers: usize, fault", "len: usize, fault", "call yelunnavi_receiver_open"),
    (RUST, "first: usize, out: *mut u8, len: usize)", "len: usize, out: *mut u8, first: usize)",
     "call yelunnavi_reader_copy"),
    (ADA, "Length, Readers : size_t", "Readers, Length : size_t", "call yelunnavi_receiver_open"),
    (ADA, "(H : in out Reader; Now : Unsigned_64; Reply : in out Read_Reply)",
     "(H : in out Reader; Reply : in out Read_Reply)", "call yelunnavi_reader_hold"),
    (CALLS, "first: usize, out: &mut [u8]) -> u32", "out: &mut [u8]) -> u32", "call yelunnavi_reader_copy"),
    # calls that aren't there
    (C, "void yelunnavi_queue_close(struct yelunnavi_queue *h);", "", "no call yelunnavi_queue_close"),
    (RUST, "    yelunnavi_queue_close(h: *mut Handle);\n", "", "no call yelunnavi_queue_close"),
    (ADA, 'External_Name => "yelunnavi_reader_hold"', 'External_Name => "yelunnavi_reader_held"',
     "no call yelunnavi_reader_hold"),
    (CALLS, "fn yelunnavi_queue_longest", "fn yelunnavi_queue_most", "no call yelunnavi_queue_most"),
    # changed, missing and other numbers
    (C, "YELUNNAVI_NO_NAME = 8", "YELUNNAVI_NO_NAME = 9", "number YELUNNAVI_NO_NAME: 9; in the source: 8"),
    (C, "YELUNNAVI_A = 0, YELUNNAVI_B = 1", "YELUNNAVI_B = 0, YELUNNAVI_A = 1", "number YELUNNAVI_A: 1"),
    (C, "YELUNNAVI_TOO_SHORT = 13,", "YELUNNAVI_TOO_SHORT_ = 13,", "no number YELUNNAVI_TOO_SHORT"),
    (C, "YELUNNAVI_VERDICT_SAMPLED = 10, ", "YELUNNAVI_VERDICT_SAMPLED = 11, ", "number YELUNNAVI_VERDICT_SAMPLED: 11"),
    (C, "    YELUNNAVI_VERDICT_BAD_UDP = 6, ", "    YELUNNAVI_VERDICT_BAD_UDP = 6, YELUNNAVI_VERDICT_LOST = 14, ",
     "number YELUNNAVI_VERDICT_LOST: the source has none"),
    (C, "YELUNNAVI_BAD_VERSION = 1,", "YELUNNAVI_BAD_VERSION,", "number YELUNNAVI_BAD_VERSION: 0; in the source: 1"),
    (C, "    YELUNNAVI_KEY_MAX = 13,\n", "", "no number YELUNNAVI_KEY_MAX"),
    (C, "YELUNNAVI_LEVEL_LINK = 1, YELUNNAVI_LEVEL_PORT = 2", "YELUNNAVI_LEVEL_LINK = 2, YELUNNAVI_LEVEL_PORT = 1",
     "number YELUNNAVI_LEVEL_LINK: 2"),
    (C, "YELUNNAVI_LONGEST_SAMPLE = 1471,", "YELUNNAVI_LONGEST_SAMPLE = 1472,", "number YELUNNAVI_LONGEST_SAMPLE"),
    (RUST, "FAULTY = 3", "FAULTY = 4", "number Code::FAULTY: 4"),
    (RUST, ' HOLDS_NONE = 11 "holds-none",', "", "no number Code::HOLDS_NONE"),
    (RUST, "SAMPLING = 1 ", "SAMPLING = 0 ", "number Service::SAMPLING: 0"),
    (RUST, "DEEPEST_QUEUE: usize = 64", "DEEPEST_QUEUE: usize = 65", "number DEEPEST_QUEUE: 65"),
    (RUST, "pub const MOST_LINKS: usize = 64;", "", "no number MOST_LINKS"),
    (ADA, "Network_B : constant Unsigned_32 := 1;", "Network_B : constant Unsigned_32 := 2;", "number Network_B: 2"),
    (ADA, "   Out_Of_Range : constant Code := 12;\n", "", "no number Out_Of_Range"),
    (ADA, "Fault_Range : constant Unsigned_32 := 4;", "Fault_Range : constant Unsigned_32 := 3;", "number Fault_Range: 3"),
    (ADA, "   Most_Readers : constant := 8;\n", "", "no number Most_Readers"),
    (ADA, "   Bad_Checksum : constant Unsigned_32 := 4;\n", "", "no number Bad_Checksum"),
    (faces.CODES, "TOO_SHORT: u32 = 13", "TOO_SHORT: u32 = 14", "number YELUNNAVI_TOO_SHORT: 13; in the source: 14"),
    (faces.NUMBERS, "0 => Some(Net::A),\n        1 => Some(Net::B)", "1 => Some(Net::A),\n        0 => Some(Net::B)",
     "number YELUNNAVI_A: 0; in the source: 1"),
    (faces.NUMBERS, "Key::Address => 11,\n        Key::Udp => 12,", "Key::Address => 12,\n        Key::Udp => 11,",
     "number Key_Udp: 12; in the source: 11"),
    (faces.NUMBERS, "PacketFault::Protocol => 5", "PacketFault::Protocol => 6",
     "number HeaderFault::PROTOCOL: 5; in the source: 6"),
    (faces.NUMBERS, "PortKind::Queuing { .. } => 2", "PortKind::Queuing { .. } => 0",
     "number Service_Queuing: 2; in the source: 0"),
    (faces.NUMBERS, "        4 => Some(FilterCause::ForeignConstant),\n", "",
     "number YELUNNAVI_FILTER_FOREIGN_CONSTANT: the source has none"),
    (faces.NUMBERS, "ConfigFault::TooMany => 8,", "ConfigFault::TooMany => 10,",
     "number Fault_Too_Many: 8; in the source: 10"),
    (faces.REPLIES, "(Some(_), None) => 1", "(Some(_), None) => 3", "number Level::LINK: 1; in the source: 3"),
    (faces.BOUNDS[0], "MOST_LINKS: usize = 64", "MOST_LINKS: usize = 65", "number Most_Links: 64; in the source: 65"),
    (C, f"#define YELUNNAVI_ABI {NUMBER}", "#define YELUNNAVI_ABI 1", f"number YELUNNAVI_ABI: 1; in the source: {NUMBER}"),
    (RUST, f"pub const ABI: u32 = {NUMBER};", "pub const ABI: u32 = 1;", f"number ABI: 1; in the source: {NUMBER}"),
    (ADA, f"   Abi : constant Unsigned_32 := {NUMBER};\n", "", "no number Abi"),
    (CALLS, f"pub const ABI: u32 = {NUMBER};", "pub const ABI: u32 = 1;", f"number YELUNNAVI_ABI: {NUMBER}; in the source: 1"),
    # the number of the interface
    (faces.ABI, f"abi = {NUMBER}", f"abi = {NEXT}", f"{faces.ABI}: the interface has the number {NEXT}; in the source: {NUMBER}"),
    (faces.CHANGES, f"`YELUNNAVI_ABI` is {NUMBER}.", f"`YELUNNAVI_ABI` is {NEXT}.", f"{faces.CHANGES}: the interface has the number {NEXT}"),
    (CALLS, f"pub const ABI: u32 = {NUMBER};", f"pub const ABI: u32 = {NEXT};", f"{faces.ABI}: the interface has the number {NUMBER}; in the source: {NEXT}"),
    *((faces.VERDICTS, "13 => Some(VerdictKind::Exhausted)", "14 => Some(VerdictKind::Exhausted)", f"{place}: the interface isn't that of the number {NUMBER}")
      for place in (CALLS, faces.ABI, C, RUST, ADA, faces.CHANGES)),
    (faces.CODES, "TOO_SHORT: u32 = 13", "TOO_SHORT: u32 = 14", f"{C}: the interface isn't that of the number {NUMBER}"),
    # words
    (WORDS, 'word = "checksum";', 'word = "sum";', "word of HeaderFault::CHECKSUM: 'sum'; in the source: 'checksum'"),
    (WORDS, "    case YELUNNAVI_VERDICT_QUEUED: word = \"queued\"; break;\n", "", "no word of VerdictKind::QUEUED"),
    (WORDS, "case YELUNNAVI_BAD_VERSION: ", "case YELUNNAVI_FILTER_TOO_SHORT: ", "no word of HeaderFault::VERSION"),
    (WORDS, "*yelunnavi_level_word(", "*yelunnavi_service_word(", "no word of Level::LINK"),
    (WORDS, 'word = "missing ";', 'word = "missing";', "word of ConfigFault::MISSING"),
    (WORDS, 'word = " out of range";', 'word = " is out of range";', "word of ConfigFault::RANGE"),
    (WORDS, 'word = "1 to 64 tables";', 'word = "1 to 65 tables";', "what is allowed of LINK"),
    (faces.EXPLANATION, 'Key::Depth => "an integer from 1 to 64"', 'Key::Depth => "an integer from 1 to 63"', "what is allowed of DEPTH"),
    (RUST, 'Key::MAX => "an integer from 0 to 1471 of', 'Key::MAX => "an integer from 1 to 1471 of', f"{RUST}: what is allowed of MAX"),
    (RUST, '            Key::KIND => "\\"sampling\\" or \\"queuing\\"",\n', "", "no what is allowed of KIND"),
    (WORDS, 'word = "refresh_us";', 'word = "refresh-us";', "word of Key::REFRESH_US"),
    (RUST, '"fragment-held"', '"held"', "word of VerdictKind::FRAGMENT_HELD: 'held'; in the source: 'fragment-held'"),
    (RUST, '"{} out of range"', '"out of range"', "word of ConfigFault::RANGE"),
    (faces.FAULTS, '"not TOML"', '"no TOML"', "word of ConfigFault::TEXT: 'not TOML'; in the source: 'no TOML'"),
    (faces.FAULTS, 'Key::Udp => "udp"', 'Key::Udp => "port"',
     "word of Key::UDP: 'udp'; in the source: 'port'"),
]


def checked(tree, *words):
    return subprocess.run([ROOT / "checks" / "interface", "--tree", tree, *words], capture_output=True, text=True, timeout=60)


@pytest.fixture(scope="session")
def released(tmp_path_factory):
    """A copy whose interface is that of a release."""
    tree = tmp_path_factory.mktemp("released")
    for name in READ:
        (tree / name).parent.mkdir(parents=True, exist_ok=True)
        shutil.copy(ROOT / name, tree / name)
    checked(tree, "--released")
    return tree


@pytest.fixture
def copy(released, tmp_path):
    return shutil.copytree(released, tmp_path, dirs_exist_ok=True)


def test_the_faces_are_those_of_the_source(copy):
    done = checked(copy)
    assert (done.returncode, done.stderr) == (0, "") and done.stdout.endswith(", 0 problems\n")


@pytest.mark.parametrize("name, old, new, told", PLANTED)
def test_a_difference_is_found(copy, name, old, new, told):
    text = (copy / name).read_text()
    assert old in text
    (copy / name).write_text(text.replace(old, new, 1))
    done = checked(copy)
    assert done.returncode == 1 and done.stderr == ""
    assert any(told in line for line in done.stdout.splitlines()[:-1]), done.stdout


@pytest.mark.parametrize("name, old, new", [
    (CALLS, "    fault: &mut FaultReply,\n", "    fault: *mut FaultReply,\n"),
    (CALLS, "fn yelunnavi_receiver_room() -> usize", "fn yelunnavi_receiver_room() -> (usize)"),
    (faces.HANDLES["Taker"], "    at: *mut u8,", "    at: *mut u8,\n    octets: usize,"),
    (faces.HELD, "    pub at: *const u8,\n    pub len: usize,", "    pub len: usize,\n    pub at: *const u8,"),
    (faces.REPLIES, "#[repr(C)]\n#[derive(Clone, Copy, Debug, Drop, PartialEq, Eq)]\npub struct TakeReply",
     "#[derive(Clone, Copy, Debug, Drop, PartialEq, Eq)]\npub struct TakeReply"),
    (RUST, "#[repr(transparent)] ", ""),
])
def test_what_is_not_of_the_form_is_not_passed_over(copy, name, old, new):
    text = (copy / name).read_text()
    assert old in text
    (copy / name).write_text(text.replace(old, new, 1))
    done = checked(copy)
    assert done.returncode == 2 and done.stdout == "" and done.stderr.startswith("checks/interface: not read: ")
