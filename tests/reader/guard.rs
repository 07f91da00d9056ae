//! Lent slices with guard bytes before and after them, and hex for reports.

const GUARD: usize = 24;

/// A slice between two guards. What lies before and after it must stay as it is.
pub struct Guarded {
    bytes: Vec<u8>,
    start: usize,
    length: usize,
}

impl Guarded {
    /// `shift`, below 8, moves the slice to another alignment.
    pub fn new(content: &[u8], shift: usize) -> Guarded {
        let start = GUARD + shift % 8;
        let mut bytes = vec![0xa5; start + content.len() + GUARD];
        bytes[start..start + content.len()].copy_from_slice(content);
        Guarded { bytes, start, length: content.len() }
    }

    pub fn slice(&self) -> &[u8] {
        &self.bytes[self.start..self.start + self.length]
    }

    pub fn slice_mut(&mut self) -> &mut [u8] {
        &mut self.bytes[self.start..self.start + self.length]
    }

    pub fn intact(&self) -> bool {
        let good = |bytes: &[u8]| bytes.iter().all(|b| *b == 0xa5);
        good(&self.bytes[..self.start]) && good(&self.bytes[self.start + self.length..])
    }
}

impl Guarded {
    /// What is wrong with it where this is due.
    pub fn told(&self, name: &str, due: &[u8], wrong: &mut Vec<String>) {
        if let Some(at) = first_difference(self.slice(), due) {
            wrong.push(format!("the {name} differs at byte {at}: library {}, due {}", hex(self.slice()), hex(due)));
        }
        self.told_around(name, wrong);
    }

    /// The same of a journal, of which the entry that differs is shown.
    pub fn told_journal(&self, due: &[u8], wrong: &mut Vec<String>) {
        if let Some(at) = first_difference(self.slice(), due) {
            let from = at / 16 * 16;
            let show = |b: &[u8]| hex(&b[from..b.len().min(from + 16)]);
            wrong.push(format!("journal from byte {from}: library {}, due {}", show(self.slice()), show(due)));
        }
        self.told_around("journal", wrong);
    }

    fn told_around(&self, name: &str, wrong: &mut Vec<String>) {
        if !self.intact() {
            wrong.push(format!("bytes around the {name} were written to"));
        }
    }
}

/// The same for words.
pub struct GuardedWords {
    words: Vec<u64>,
    length: usize,
}

const WORD: u64 = 0xa5a5_5a5a_1234_4321;

impl GuardedWords {
    pub fn new(content: &[u64]) -> GuardedWords {
        let mut words = vec![WORD; content.len() + 4];
        words[2..2 + content.len()].copy_from_slice(content);
        GuardedWords { words, length: content.len() }
    }

    pub fn slice(&self) -> &[u64] {
        &self.words[2..2 + self.length]
    }

    pub fn slice_mut(&mut self) -> &mut [u64] {
        &mut self.words[2..2 + self.length]
    }

    pub fn intact(&self) -> bool {
        let good = |words: &[u64]| words.iter().all(|w| *w == WORD);
        good(&self.words[..2]) && good(&self.words[2 + self.length..])
    }
}

impl GuardedWords {
    pub fn told(&self, name: &str, due: &[u64], wrong: &mut Vec<String>) {
        if self.slice() != due || !self.intact() {
            wrong.push(format!("the {name}, or words around it, were written to"));
        }
    }
}

pub fn hex(bytes: &[u8]) -> String {
    let most = 20_000;
    let mut text: String = bytes.iter().take(most).map(|b| format!("{b:02x}")).collect();
    if bytes.len() > most {
        text += &format!("... ({} bytes in all)", bytes.len());
    }
    text
}

/// The first place where two slices differ.
pub fn first_difference<T: PartialEq>(left: &[T], right: &[T]) -> Option<usize> {
    (0..left.len().max(right.len())).find(|i| left.get(*i) != right.get(*i))
}
