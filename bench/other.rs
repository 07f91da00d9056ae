//! Debian's linux-perf-event-reader as a drain: each record is parsed by that crate, and an entry goes to
//! the journal. Other than ollskuvan_drain it makes a value of each record and does not test all that
//! document 01 tests (names without a zero, bytes left over, the types it does not know), so times are to be
//! read as "what a reader from the shelf costs", not as the same work.
//! The two exports have C's parameters each, since the bench calls them as it calls any drain.

use linux_perf_event_reader::{
    Endianness, PerfEventAttr, RawData, RawEventRecord, RecordParseInfo, RecordType,
};
use std::hint::black_box;

#[repr(C)]
pub struct Drained {
    taken: u64,
    bytes: u64,
    tail: u64,
    stop: u32,
}

/// The attributes as that crate takes them: the bytes of a perf_event_attr.
fn parse_info(sample_type: u64, read_format: u64, sample_id_all: bool, user: u64, interrupt: u64) -> RecordParseInfo {
    let mut attr = [0u8; 128];
    attr[0..4].copy_from_slice(&1u32.to_le_bytes()); // a software event
    attr[4..8].copy_from_slice(&128u32.to_le_bytes());
    attr[24..32].copy_from_slice(&sample_type.to_le_bytes());
    attr[32..40].copy_from_slice(&read_format.to_le_bytes());
    attr[40..48].copy_from_slice(&(u64::from(sample_id_all) << 18).to_le_bytes());
    attr[80..88].copy_from_slice(&user.to_le_bytes());
    attr[96..104].copy_from_slice(&interrupt.to_le_bytes());
    let attr = PerfEventAttr::parse::<_, byteorder::LittleEndian>(&attr[..], None).expect("attributes");
    RecordParseInfo::new(&attr, Endianness::LittleEndian)
}

fn drain(ring: &[u8], head: u64, first_tail: u64, info: RecordParseInfo, budget: u64, journal: &mut [u8], common: bool) -> Drained {
    let mut done = Drained { taken: 0, bytes: 0, tail: first_tail, stop: 0 };
    for entry in journal.chunks_exact_mut(16) {
        if done.tail == head || done.taken == budget {
            break;
        }
        let place = (done.tail % ring.len() as u64) as usize;
        let header = u64::from_le_bytes(ring[place..place + 8].try_into().unwrap());
        let size = (header >> 48) as usize;
        if size < 8 {
            done.stop = 6;
            break;
        }
        let data = if place + size <= ring.len() {
            RawData::Single(&ring[place + 8..place + size])
        } else if place + 8 == ring.len() {
            RawData::Single(&ring[..size - 8])
        } else {
            RawData::Split(&ring[place + 8..], &ring[..place + size - ring.len()])
        };
        let record = RawEventRecord::new(RecordType(header as u32), (header >> 32) as u16, data, info);
        let mut answer = u64::from(black_box(record.parse()).is_err());
        if common {
            answer |= u64::from(black_box(record.common_data()).is_err());
        }
        entry[..8].copy_from_slice(&(16 | (header & 0xffff) << 32 | answer << 48).to_le_bytes());
        entry[8..].copy_from_slice(&done.tail.to_le_bytes());
        done.taken += 1;
        done.bytes += size as u64;
        done.tail = done.tail.wrapping_add(size as u64);
    }
    done
}

/// # Safety
/// As ollskuvan_drain; the ring must be sound.
#[no_mangle]
pub unsafe extern "C" fn other_drain(
    ring: *const u8, ring_len: usize, head: u64, tail: u64, sample_type: u64, read_format: u64, sample_id_all: u32,
    user_mask: u64, interrupt_mask: u64, _branch_sample_type: u64, _edition: u32, budget: u64, _scratch: *mut u8,
    _scratch_len: usize, journal: *mut u8, journal_len: usize,
) -> Drained {
    let ring = std::slice::from_raw_parts(ring, ring_len);
    let journal = std::slice::from_raw_parts_mut(journal, journal_len);
    let info = parse_info(sample_type, read_format, sample_id_all != 0, user_mask, interrupt_mask);
    drain(ring, head, tail, info, budget, journal, false)
}

/// # Safety
/// As other_drain.
#[no_mangle]
pub unsafe extern "C" fn other_read(
    ring: *const u8, ring_len: usize, head: u64, tail: u64, sample_type: u64, read_format: u64, sample_id_all: u32,
    user_mask: u64, interrupt_mask: u64, _branch_sample_type: u64, _edition: u32, budget: u64, _scratch: *mut u8,
    _scratch_len: usize, journal: *mut u8, journal_len: usize,
) -> Drained {
    let ring = std::slice::from_raw_parts(ring, ring_len);
    let journal = std::slice::from_raw_parts_mut(journal, journal_len);
    let info = parse_info(sample_type, read_format, sample_id_all != 0, user_mask, interrupt_mask);
    drain(ring, head, tail, info, budget, journal, true)
}
