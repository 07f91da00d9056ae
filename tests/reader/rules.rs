//! Document 01 as tables: editions, refusals 20 to 25, and what lies in the body of each type. The hardware index and 25
//! are document 02's, M-102; the flag of a name is its M-107.
//!
//! Written from the documents alone. The reader (record.rs), the writer (writer.rs) and the
//! generator (made.rs) walk the lists of items that are given here.

use crate::words::*;

#[derive(Clone, Copy, Debug, PartialEq)]
pub struct Attributes {
    pub sample_type: u64,
    pub read_format: u64,
    pub sample_id_all: u32,
    pub user_mask: u64,
    pub interrupt_mask: u64,
    pub branch_sample_type: u64,
}

impl Attributes {
    pub const EMPTY: Attributes = Attributes {
        sample_type: 0,
        read_format: 0,
        sample_id_all: 0,
        user_mask: 0,
        interrupt_mask: 0,
        branch_sample_type: 0,
    };

    pub fn sample_bit(&self, bit: u32) -> bool {
        self.sample_type >> bit & 1 == 1
    }

    pub fn read_bit(&self, bit: u32) -> bool {
        self.read_format >> bit & 1 == 1
    }

    pub fn branch_bit(&self, bit: u32) -> bool {
        self.branch_sample_type >> bit & 1 == 1
    }

    pub fn id_all(&self) -> bool {
        self.sample_id_all != 0
    }
}

pub struct Edition {
    pub number: u32,
    pub last_sample_bit: u32,
    pub last_read_bit: u32,
    pub last_type: u64,
    pub build_id_form: bool,
    pub hw_index: bool,
}

pub const EDITIONS: [Edition; 4] = [
    Edition { number: 1, last_sample_bit: 15, last_read_bit: 3, last_type: 9, build_id_form: false, hw_index: false },
    Edition { number: 2, last_sample_bit: 18, last_read_bit: 3, last_type: 15, build_id_form: false, hw_index: false },
    Edition { number: 3, last_sample_bit: 24, last_read_bit: 3, last_type: 20, build_id_form: true, hw_index: true },
    Edition { number: 4, last_sample_bit: 24, last_read_bit: 4, last_type: 21, build_id_form: true, hw_index: true },
];

pub fn edition(number: u32) -> Option<&'static Edition> {
    EDITIONS.iter().find(|e| e.number == number)
}

pub const MMAP2: u64 = 10;
pub const READ: u64 = 8;
pub const SAMPLE: u64 = 9;

pub fn has_build_id(kind: u64, misc: u64) -> bool {
    kind == MMAP2 && misc >> 14 & 1 == 1
}

/// "Its lowest three bits are the CPU mode; bit 13 means data mapping (MMAP, MMAP2), exec (COMM) or switched out
/// (types 14, 15); bit 14 means exact address (SAMPLE), preempted (14, 15) or build id (MMAP2)": the mode in the low
/// three bits, then one bit for each of the six in that order.
pub fn misc_meaning(kind: u64, misc: u64) -> u32 {
    const SIX: [(u32, &[u64]); 6] =
        [(13, &[1, 10]), (13, &[3]), (13, &[14, 15]), (14, &[9]), (14, &[14, 15]), (14, &[10])];
    let mut meaning = (misc & 7) as u32;
    for (number, (bit, kinds)) in SIX.iter().enumerate() {
        if misc >> bit & 1 == 1 && kinds.contains(&kind) {
            meaning |= 8 << number;
        }
    }
    meaning
}

/// 25: "Where sample bit 11 is selected, edition 3 reads and writes the word if bit 17 is set; editions 1 and 2 refuse such a
/// SAMPLE with 25; a SAMPLE with sample bit 11 and a branch bit from 19 up is 25 in every edition, and any record but a
/// SAMPLE with sample bit 11 never is."
fn branches_unknown(kind: u64, e: &Edition, a: &Attributes) -> bool {
    let from_19_up = a.branch_sample_type >> 19 != 0;
    kind == SAMPLE && a.sample_bit(11) && (from_19_up || a.branch_bit(17) && !e.hw_index)
}

/// Refusals 20 to 25, in the order checked: "25 is checked after 23 and before 24".
pub fn unknown(kind: u64, misc: u64, e: &Edition, a: &Attributes) -> Option<u32> {
    let sample = kind == SAMPLE;
    if kind == 0 || kind > e.last_type {
        Some(20)
    } else if a.sample_type >> (e.last_sample_bit + 1) != 0 && (sample || a.id_all()) {
        Some(21)
    } else if a.read_format >> (e.last_read_bit + 1) != 0 && (kind == READ || sample && a.sample_bit(4)) {
        Some(22)
    } else if has_build_id(kind, misc) && !e.build_id_form {
        Some(23)
    } else if branches_unknown(kind, e, a) {
        Some(25)
    } else if sample && a.sample_bit(14) && a.sample_bit(24) {
        Some(24)
    } else {
        None
    }
}

/// An inner rule (32) on a number as soon as it is read.
#[derive(Clone, Copy, Debug, PartialEq)]
pub enum Rule {
    None,
    /// plus 4 is a multiple of 8 (raw size)
    PlusFour,
    /// is a multiple of 8 (stack and aux size)
    Eights,
    /// at most 20 (build id size)
    Twenty,
}

impl Rule {
    pub fn broken(self, number: u64) -> bool {
        match self {
            Rule::None => false,
            Rule::PlusFour => number % 8 != 4,
            Rule::Eights => number % 8 != 0,
            Rule::Twenty => number > 20,
        }
    }
}

/// One item of a body, in the order in which it lies there. The `usize` of a field is its word.
#[derive(Clone, Copy, Debug, PartialEq)]
pub enum Item {
    /// a number of 1, 2, 4 or 8 bytes
    Number { word: usize, bytes: usize, rule: Rule },
    /// bytes that are ignored, and written as zero
    Ignored { bytes: usize },
    /// as many entries as the count, a number read before, says
    List { place: usize, count: usize, entry: usize },
    /// as many words as the mask has ones; none if the abi is 0
    Registers { abi: usize, place: usize, count: usize, mask: u64 },
    /// the filled length; only there if the stack size is not 0, and at most that
    Filled { word: usize, size: usize },
    /// the 20 bytes of which a build id takes the first `count`
    BuildId { place: usize, count: usize },
    /// exactly this many bytes
    Fixed { place: usize, count: usize, bytes: usize },
    /// a name with its zero, up to the fields' end; its flag: "whether any byte after the name's zero within its room is
    /// not zero"
    Name { place: usize, count: usize, flag: usize },
    /// 0 to 7 bytes up to the fields' end
    Padding,
}

fn n16(word: usize) -> Item {
    Item::Number { word, bytes: 2, rule: Rule::None }
}

fn n32(word: usize) -> Item {
    Item::Number { word, bytes: 4, rule: Rule::None }
}

fn n64(word: usize) -> Item {
    Item::Number { word, bytes: 8, rule: Rule::None }
}

fn list(place: usize, count: usize, entry: usize) -> Item {
    Item::List { place, count, entry }
}

fn name(place: usize, count: usize, flag: usize) -> Item {
    Item::Name { place, count, flag }
}

/// Where the read values go in the words of a READ or a SAMPLE.
struct ReadWords {
    value: usize,
    values_count: usize,
    enabled: usize,
    running: usize,
    id: usize,
    lost: usize,
    values: usize,
}

const IN_READ: ReadWords = ReadWords {
    value: read::VALUE,
    values_count: read::VALUES_COUNT,
    enabled: read::ENABLED,
    running: read::RUNNING,
    id: read::ID,
    lost: read::LOST,
    values: read::VALUES,
};

const IN_SAMPLE: ReadWords = ReadWords {
    value: sample::READ_VALUE,
    values_count: sample::READ_VALUES_COUNT,
    enabled: sample::READ_ENABLED,
    running: sample::READ_RUNNING,
    id: sample::READ_ID,
    lost: sample::READ_LOST,
    values: sample::READ_VALUES,
};

/// "Without bit 3, value, then enabled time (bit 0), running time (1), id (2). With bit 3: n, the
/// two times where selected, then n times value and id where selected." And by bit 4 "a lost count follows
/// each counter's value and, where selected, id; without bit 3 it is the last read value".
fn read_values(items: &mut Vec<Item>, w: &ReadWords, a: &Attributes) {
    let group = a.read_bit(3);
    items.push(n64(if group { w.values_count } else { w.value }));
    if a.read_bit(0) {
        items.push(n64(w.enabled));
    }
    if a.read_bit(1) {
        items.push(n64(w.running));
    }
    if group {
        items.push(list(w.values, w.values_count, 8 + 8 * (usize::from(a.read_bit(2)) + usize::from(a.read_bit(4)))));
        return;
    }
    if a.read_bit(2) {
        items.push(n64(w.id));
    }
    if a.read_bit(4) {
        items.push(n64(w.lost));
    }
}

/// The items of a SAMPLE, in document 01's order, where selected.
fn sample_body(a: &Attributes) -> Vec<Item> {
    let mut items = Vec::with_capacity(40);
    let bit = |b| a.sample_bit(b);
    if bit(16) {
        items.push(n64(sample::IDENTIFIER));
    }
    if bit(0) {
        items.push(n64(sample::IP));
    }
    if bit(1) {
        items.extend([n32(sample::PID), n32(sample::TID)]);
    }
    if bit(2) {
        items.push(n64(sample::TIME));
    }
    if bit(3) {
        items.push(n64(sample::ADDR));
    }
    if bit(6) {
        items.push(n64(sample::ID));
    }
    if bit(9) {
        items.push(n64(sample::STREAM_ID));
    }
    if bit(7) {
        items.extend([n32(sample::CPU), Item::Ignored { bytes: 4 }]);
    }
    if bit(8) {
        items.push(n64(sample::PERIOD));
    }
    if bit(4) {
        read_values(&mut items, &IN_SAMPLE, a);
    }
    if bit(5) {
        items.extend([n64(sample::CALLCHAIN_COUNT), list(sample::CALLCHAIN, sample::CALLCHAIN_COUNT, 8)]);
    }
    if bit(10) {
        items.push(Item::Number { word: sample::RAW_COUNT, bytes: 4, rule: Rule::PlusFour });
        items.push(list(sample::RAW, sample::RAW_COUNT, 1));
    }
    if bit(11) {
        items.push(n64(sample::BRANCHES_COUNT));
        // "one more word between branch count and entries when branch sample bit 17 is selected", whatever the count is
        if a.branch_bit(17) {
            items.push(n64(sample::HW_INDEX));
        }
        items.push(list(sample::BRANCHES, sample::BRANCHES_COUNT, 24));
    }
    if bit(12) {
        items.push(n64(sample::USER_ABI));
        items.push(Item::Registers {
            abi: sample::USER_ABI,
            place: sample::USER_REGISTERS,
            count: sample::USER_REGISTERS_COUNT,
            mask: a.user_mask,
        });
    }
    if bit(13) {
        items.push(Item::Number { word: sample::STACK_COUNT, bytes: 8, rule: Rule::Eights });
        items.push(list(sample::STACK, sample::STACK_COUNT, 1));
        items.push(Item::Filled { word: sample::STACK_FILLED, size: sample::STACK_COUNT });
    }
    if bit(14) || bit(24) {
        items.push(n64(sample::WEIGHT));
    }
    if bit(15) {
        items.push(n64(sample::DATA_SOURCE));
    }
    if bit(17) {
        items.push(n64(sample::TRANSACTION));
    }
    if bit(18) {
        items.push(n64(sample::INTERRUPT_ABI));
        items.push(Item::Registers {
            abi: sample::INTERRUPT_ABI,
            place: sample::INTERRUPT_REGISTERS,
            count: sample::INTERRUPT_REGISTERS_COUNT,
            mask: a.interrupt_mask,
        });
    }
    if bit(19) {
        items.push(n64(sample::PHYSICAL_ADDRESS));
    }
    if bit(21) {
        items.push(n64(sample::CGROUP));
    }
    if bit(22) {
        items.push(n64(sample::DATA_PAGE_SIZE));
    }
    if bit(23) {
        items.push(n64(sample::CODE_PAGE_SIZE));
    }
    if bit(20) {
        items.push(Item::Number { word: sample::AUX_COUNT, bytes: 8, rule: Rule::Eights });
        items.push(list(sample::AUX, sample::AUX_COUNT, 1));
    }
    items
}

/// The items after the header, without the trailer. The type must be one of 1 to 21.
pub fn body(kind: u64, misc: u64, a: &Attributes) -> Vec<Item> {
    match kind {
        1 => vec![
            n32(mmap::PID),
            n32(mmap::TID),
            n64(mmap::ADDR),
            n64(mmap::LEN),
            n64(mmap::PGOFF),
            name(mmap::NAME, mmap::NAME_COUNT, mmap::NAME_FLAG),
        ],
        2 => vec![n64(lost::ID), n64(lost::LOST)],
        3 => vec![n32(comm::PID), n32(comm::TID), name(comm::NAME, comm::NAME_COUNT, comm::NAME_FLAG)],
        4 | 7 => vec![
            n32(exit_fork::PID),
            n32(exit_fork::PPID),
            n32(exit_fork::TID),
            n32(exit_fork::PTID),
            n64(exit_fork::TIME),
        ],
        5 | 6 => vec![n64(throttle::TIME), n64(throttle::ID), n64(throttle::STREAM_ID)],
        8 => {
            let mut items = vec![n32(read::PID), n32(read::TID)];
            read_values(&mut items, &IN_READ, a);
            items
        }
        9 => sample_body(a),
        10 => {
            let mut items = vec![
                n32(mmap2::PID),
                n32(mmap2::TID),
                n64(mmap2::ADDR),
                n64(mmap2::LEN),
                n64(mmap2::PGOFF),
            ];
            if has_build_id(kind, misc) {
                items.push(Item::Number { word: mmap2::BUILD_ID_COUNT, bytes: 1, rule: Rule::Twenty });
                items.push(Item::Ignored { bytes: 3 });
                items.push(Item::BuildId { place: mmap2::BUILD_ID, count: mmap2::BUILD_ID_COUNT });
            } else {
                items.extend([n32(mmap2::MAJ), n32(mmap2::MIN), n64(mmap2::INO), n64(mmap2::GENERATION)]);
            }
            items.extend([n32(mmap2::PROT), n32(mmap2::FLAGS)]);
            items.push(name(mmap2::NAME, mmap2::NAME_COUNT, mmap2::NAME_FLAG));
            items
        }
        11 => vec![n64(aux::OFFSET), n64(aux::SIZE), n64(aux::FLAGS)],
        12 => vec![n32(itrace_start::PID), n32(itrace_start::TID)],
        13 => vec![n64(lost_samples::LOST)],
        14 => vec![],
        15 => vec![n32(switch_cpu_wide::PID), n32(switch_cpu_wide::TID)],
        16 => vec![
            n32(namespaces::PID),
            n32(namespaces::TID),
            n64(namespaces::NAMESPACES_COUNT),
            list(namespaces::NAMESPACES, namespaces::NAMESPACES_COUNT, 16),
        ],
        17 => vec![
            n64(ksymbol::ADDR),
            n32(ksymbol::LEN),
            n16(ksymbol::KSYM_TYPE),
            n16(ksymbol::FLAGS),
            name(ksymbol::NAME, ksymbol::NAME_COUNT, ksymbol::NAME_FLAG),
        ],
        18 => vec![
            n16(bpf_event::BPF_TYPE),
            n16(bpf_event::FLAGS),
            n32(bpf_event::ID),
            Item::Fixed { place: bpf_event::TAG, count: bpf_event::TAG_COUNT, bytes: 8 },
        ],
        19 => vec![n64(cgroup::ID), name(cgroup::NAME, cgroup::NAME_COUNT, cgroup::NAME_FLAG)],
        20 => vec![
            n64(text_poke::ADDR),
            n16(text_poke::OLD_COUNT),
            n16(text_poke::NEW_COUNT),
            list(text_poke::OLD, text_poke::OLD_COUNT, 1),
            list(text_poke::NEW, text_poke::NEW_COUNT, 1),
            Item::Padding,
        ],
        21 => vec![n64(aux_output::HW_ID)],
        _ => unreachable!("type {kind} was refused with 20"),
    }
}

/// The trailer: "every record but SAMPLE ends with these eight-byte items where selected".
pub fn trailer_items(kind: u64, a: &Attributes) -> Vec<Item> {
    let mut items = Vec::new();
    if kind == SAMPLE || !a.id_all() {
        return items;
    }
    if a.sample_bit(1) {
        items.extend([n32(trailer::PID), n32(trailer::TID)]);
    }
    if a.sample_bit(2) {
        items.push(n64(trailer::TIME));
    }
    if a.sample_bit(6) {
        items.push(n64(trailer::ID));
    }
    if a.sample_bit(9) {
        items.push(n64(trailer::STREAM_ID));
    }
    if a.sample_bit(7) {
        items.extend([n32(trailer::CPU), Item::Ignored { bytes: 4 }]);
    }
    if a.sample_bit(16) {
        items.push(n64(trailer::IDENTIFIER));
    }
    items
}

/// The trailer's length: 8 bytes for each selected bit of 66,246.
pub fn trailer_length(kind: u64, a: &Attributes) -> usize {
    if kind == SAMPLE || !a.id_all() {
        0
    } else {
        8 * (a.sample_type & 66_246).count_ones() as usize
    }
}
