//! What Debian's linux-perf-event-reader makes of the kept cases: a line of `reader plain` in, a line out.
//! Nothing is compared here; tests/cases/elsewhere.sh builds and runs it for people to read.

use linux_perf_event_reader::{Endianness, PerfEventAttr, RawData, RawEventRecord, RecordParseInfo, RecordType};
use std::io::BufRead;

/// The attributes as that crate takes them: the bytes of a perf_event_attr.
fn parse_info(numbers: &[u64]) -> RecordParseInfo {
    let mut attr = [0u8; 128];
    attr[0..4].copy_from_slice(&1u32.to_le_bytes()); // a software event
    attr[4..8].copy_from_slice(&128u32.to_le_bytes());
    attr[24..32].copy_from_slice(&numbers[0].to_le_bytes()); // sample type
    attr[32..40].copy_from_slice(&numbers[1].to_le_bytes()); // read format
    attr[40..48].copy_from_slice(&(u64::from(numbers[2] != 0) << 18).to_le_bytes()); // sample_id_all
    attr[72..80].copy_from_slice(&numbers[5].to_le_bytes()); // branch sample type
    attr[80..88].copy_from_slice(&numbers[3].to_le_bytes()); // user mask
    attr[96..104].copy_from_slice(&numbers[4].to_le_bytes()); // interrupt mask
    let attr = PerfEventAttr::parse::<_, byteorder::LittleEndian>(&attr[..], None).expect("attributes");
    RecordParseInfo::new(&attr, Endianness::LittleEndian)
}

/// `before` is how many of the record's bytes lie before the ring's end.
fn answer(record: &[u8], before: usize, info: RecordParseInfo) -> String {
    let header = u64::from_le_bytes(record[..8].try_into().unwrap());
    let data = if before < record.len() {
        RawData::Split(&record[8..before], &record[before..])
    } else {
        RawData::Single(&record[8..])
    };
    let parsed = RawEventRecord::new(RecordType(header as u32), (header >> 32) as u16, data, info).parse();
    match parsed {
        Ok(value) => format!("accepted: {value:?}"),
        Err(error) => format!("refused: {error}"),
    }
}

fn main() {
    std::panic::set_hook(Box::new(|_| {}));
    for line in std::io::stdin().lock().lines() {
        let line = line.expect("a line");
        let words: Vec<&str> = line.split(' ').collect();
        let numbers: Vec<u64> = words[1..8].iter().map(|w| w.parse().expect("a number")).collect();
        let record: Vec<u8> = (0..words[8].len() / 2)
            .map(|i| u8::from_str_radix(&words[8][2 * i..2 * i + 2], 16).expect("hexadecimal"))
            .collect();
        let info = parse_info(&numbers[..6]);
        let said = std::panic::catch_unwind(|| answer(&record, numbers[6] as usize, info));
        let said = said.unwrap_or_else(|_| "the program ends (panic)".to_string());
        println!("{}: {}", words[0], said.chars().take(420).collect::<String>());
    }
}
