//! The words of a value, by record type. A value is 56 words of 64 bits.

pub const FIELDS: usize = 56;

pub const TYPE: usize = 0;
pub const MISC: usize = 1;
pub const SIZE: usize = 2;

/// One module for each record type: a constant for each word, and the list of all names.
macro_rules! words {
    ($type:ident: $($name:ident = $word:expr),* $(,)?) => {
        #[allow(dead_code)]
        pub mod $type {
            $(pub const $name: usize = $word;)*
            pub const NAMES: &[(usize, &str)] = &[$(($word, stringify!($name))),*];
        }
    };
}

words! { mmap: PID = 3, TID = 4, ADDR = 5, LEN = 6, PGOFF = 7, NAME = 8, NAME_COUNT = 9, NAME_FLAG = 10 }
words! { lost: ID = 3, LOST = 4 }
words! { comm: PID = 3, TID = 4, NAME = 5, NAME_COUNT = 6, NAME_FLAG = 7 }
words! { exit_fork: PID = 3, PPID = 4, TID = 5, PTID = 6, TIME = 7 }
words! { throttle: TIME = 3, ID = 4, STREAM_ID = 5 }
words! { read: PID = 3, TID = 4, VALUE = 5, VALUES_COUNT = 6, ENABLED = 7, RUNNING = 8, ID = 9, LOST = 10, VALUES = 11 }
words! { sample:
    IDENTIFIER = 3, IP = 4, PID = 5, TID = 6, TIME = 7, ADDR = 8, ID = 9, STREAM_ID = 10, CPU = 11, PERIOD = 12,
    READ_VALUE = 13, READ_VALUES_COUNT = 14, READ_ENABLED = 15, READ_RUNNING = 16, READ_ID = 17, READ_LOST = 18,
    READ_VALUES = 19, CALLCHAIN_COUNT = 20, CALLCHAIN = 21, RAW_COUNT = 22, RAW = 23, BRANCHES_COUNT = 24,
    HW_INDEX = 25, BRANCHES = 26, USER_ABI = 27, USER_REGISTERS = 28, USER_REGISTERS_COUNT = 29, STACK_COUNT = 30,
    STACK = 31, STACK_FILLED = 32, WEIGHT = 33, DATA_SOURCE = 34, TRANSACTION = 35, INTERRUPT_ABI = 36,
    INTERRUPT_REGISTERS = 37, INTERRUPT_REGISTERS_COUNT = 38, PHYSICAL_ADDRESS = 39, CGROUP = 40,
    DATA_PAGE_SIZE = 41, CODE_PAGE_SIZE = 42, AUX_COUNT = 43, AUX = 44 }
words! { mmap2:
    PID = 3, TID = 4, ADDR = 5, LEN = 6, PGOFF = 7, MAJ = 8, MIN = 9, INO = 10, GENERATION = 11,
    BUILD_ID_COUNT = 12, BUILD_ID = 13, PROT = 14, FLAGS = 15, NAME = 16, NAME_COUNT = 17, NAME_FLAG = 18 }
words! { aux: OFFSET = 3, SIZE = 4, FLAGS = 5 }
words! { itrace_start: PID = 3, TID = 4 }
words! { lost_samples: LOST = 3 }
words! { switch_cpu_wide: PID = 3, TID = 4 }
words! { namespaces: PID = 3, TID = 4, NAMESPACES_COUNT = 5, NAMESPACES = 6 }
words! { ksymbol: ADDR = 3, LEN = 4, KSYM_TYPE = 5, FLAGS = 6, NAME = 7, NAME_COUNT = 8, NAME_FLAG = 9 }
words! { bpf_event: BPF_TYPE = 3, FLAGS = 4, ID = 5, TAG = 6, TAG_COUNT = 7 }
words! { cgroup: ID = 3, NAME = 4, NAME_COUNT = 5, NAME_FLAG = 6 }
words! { text_poke: ADDR = 3, OLD_COUNT = 4, NEW_COUNT = 5, OLD = 6, NEW = 7 }
words! { aux_output: HW_ID = 3 }
words! { trailer: PID = 48, TID = 49, TIME = 50, ID = 51, STREAM_ID = 52, CPU = 53, IDENTIFIER = 54 }

/// The name of a record type.
pub fn type_name(kind: u64) -> &'static str {
    const NAMES: [&str; 22] = [
        "-", "MMAP", "LOST", "COMM", "EXIT", "THROTTLE", "UNTHROTTLE", "FORK", "READ", "SAMPLE", "MMAP2", "AUX",
        "ITRACE_START", "LOST_SAMPLES", "SWITCH", "SWITCH_CPU_WIDE", "NAMESPACES", "KSYMBOL", "BPF_EVENT", "CGROUP",
        "TEXT_POKE", "AUX_OUTPUT_HW_ID",
    ];
    usize::try_from(kind).ok().and_then(|k| NAMES.get(k).copied()).unwrap_or("other")
}

/// The name of a word in a value of this type.
pub fn word_name(kind: u64, word: usize) -> String {
    let fixed = match word {
        TYPE => Some("TYPE"),
        MISC => Some("MISC"),
        SIZE => Some("SIZE"),
        _ => None,
    };
    if let Some(name) = fixed {
        return name.to_string();
    }
    if let Some((_, name)) = trailer::NAMES.iter().find(|(w, _)| *w == word) {
        return format!("TRAILER_{name}");
    }
    let names: &[(usize, &str)] = match kind {
        1 => mmap::NAMES,
        2 => lost::NAMES,
        3 => comm::NAMES,
        4 | 7 => exit_fork::NAMES,
        5 | 6 => throttle::NAMES,
        8 => read::NAMES,
        9 => sample::NAMES,
        10 => mmap2::NAMES,
        11 => aux::NAMES,
        12 => itrace_start::NAMES,
        13 => lost_samples::NAMES,
        15 => switch_cpu_wide::NAMES,
        16 => namespaces::NAMES,
        17 => ksymbol::NAMES,
        18 => bpf_event::NAMES,
        19 => cgroup::NAMES,
        20 => text_poke::NAMES,
        21 => aux_output::NAMES,
        _ => &[],
    };
    match names.iter().find(|(w, _)| *w == word) {
        Some((_, name)) => format!("{}_{name}", type_name(kind)),
        None => format!("word {word}"),
    }
}

/// The word of a name's flag, for the types that have a name: "MMAP, MMAP2, COMM, KSYMBOL and CGROUP records gain a flag".
pub fn flag_word(kind: u64) -> Option<usize> {
    match kind {
        1 => Some(mmap::NAME_FLAG),
        3 => Some(comm::NAME_FLAG),
        10 => Some(mmap2::NAME_FLAG),
        17 => Some(ksymbol::NAME_FLAG),
        19 => Some(cgroup::NAME_FLAG),
        _ => None,
    }
}

/// The place words of every list and name a type can have, selected or not.
pub fn place_words(kind: u64) -> &'static [usize] {
    match kind {
        1 => &[mmap::NAME],
        3 => &[comm::NAME],
        8 => &[read::VALUES],
        9 => &[
            sample::READ_VALUES,
            sample::CALLCHAIN,
            sample::RAW,
            sample::BRANCHES,
            sample::USER_REGISTERS,
            sample::STACK,
            sample::INTERRUPT_REGISTERS,
            sample::AUX,
        ],
        10 => &[mmap2::BUILD_ID, mmap2::NAME],
        16 => &[namespaces::NAMESPACES],
        17 => &[ksymbol::NAME],
        18 => &[bpf_event::TAG],
        19 => &[cgroup::NAME],
        20 => &[text_poke::OLD, text_poke::NEW],
        _ => &[],
    }
}
