//! The tests from outside: an independent reader of perf rings, written from document 01 and not
//! from the proved code, and its comparison with libollskuvan.a over the exports to C.
//!
//! Standard library only. Build and use: tests/run.sh, or `reader help`.

mod abi;
mod backward;
mod by_hand;
mod cases;
mod compare;
mod compares;
mod drains;
mod events;
mod examples;
#[cfg(standin)]
mod exports;
mod fuzz;
mod guard;
mod images;
mod judged;
mod made;
mod made_stores;
mod meanings;
mod meets;
mod ones;
mod readers;
mod record;
mod replay;
mod replays;
mod ring;
mod rules;
mod salvage;
mod salvages;
mod series;
mod soak;
mod store;
mod stores;
mod tables;
mod tally;
mod values;
mod walks;
mod words;
mod writer;

use std::io::{Read, Write};
use std::path::{Path, PathBuf};
use std::process::ExitCode;
use std::time::Instant;
use tally::Tally;

const HELP: &str = "\
reader examples                       document 01's examples on the independent reader
reader dump < IMAGE                   what ringdump prints, by the independent reader
reader list IMAGE                     the records of an image with their values, by name
reader rings FOLDER                   every record of the real rings is accepted in its edition and the newest, and their drains compared
reader drains [OPTIONS]               drain, record check and name copy: the library against the independent reader
reader values [OPTIONS]               read and write: the library against the independent reader and writer
reader tables [OPTIONS]               drain, reader of one record and lookup with a table of events, compared
reader judged [OPTIONS]               one record with a table: record check, read, and how many events were inspected; compared
reader table-rings FOLDER [OPTIONS]   the real rings of several events, each with its NAME.table; then damaged
reader ones [OPTIONS]                 the reader of one record: the library against the independent reader
reader series [OPTIONS]               drains cut anywhere against one drain, by the library; --rings FOLDER: real rings too
reader readers [OPTIONS]              two readers of one ring: the tail for the kernel, and each beside itself alone
reader stores [OPTIONS]               the store of settings: read and write by the library and by the independent reader
reader kept-stores FOLDER             kept stores of both versions: what they hold, read, and written again
reader store-told FILE..              what is wrong with each store, and where, or what it holds: a line each
reader store-damage FILE FOLDER [OPTIONS]
                                      damaged copies of a store, each to a file of its own
reader replays [OPTIONS]              traces played over a simulated ring: the library against the independent reader
reader walks [OPTIONS]                the walk of a backward ring, with one attribute set and with a table, compared
reader back-rings FOLDER [OPTIONS]    the real backward rings, some with a NAME.table; then damaged
reader salvages [OPTIONS]             damaged streams: what is kept, the list of holes, the rooms; the library against the independent reader
reader compares [OPTIONS]             two rings compared, with a field, a record or ignored bytes changed; the library against the independent reader
reader meets [OPTIONS]                where two requests meet: what the library gives of one is lent to it for the other; compared
reader meanings [OPTIONS]             what misc means: the library against the independent reader
reader bits                           each sample bit, read format, branch bit, type and trailer bit: written, read, compared
reader images PROGRAM [WORDS...] [OPTIONS]
                                      ringdump's print over made images, real rings and inputs of every length
reader cases FOLDER                   the kept cases: inputs that other readers get wrong, with the answers that are due
reader plain FOLDER                   the records of the kept cases, a line each, for other readers
reader damaged --rings FOLDER [OPTIONS]
                                      real rings with damage: drain, check and read compared
reader soak PROGRAM [WORDS...] --rings FOLDER [OPTIONS]
                                      drains, values, damaged real rings and printed images for --minutes N (default 1)
reader seeds FOLDER [OPTIONS]         seeds for the fuzz target: from the real rings, and --count made ones
options: --seed N (default 1)  --count N  --from N (first case)  --rings FOLDER  --folder FOLDER (for files made)  --minutes N
A case depends on the seed and its number alone: --seed S --from N --count 1 runs case N again.
";

struct Options {
    seed: u64,
    count: Option<u64>,
    from: u64,
    rings: Option<PathBuf>,
    folder: PathBuf,
    minutes: u64,
    words: Vec<String>,
}

fn parse(arguments: &[String]) -> Result<Options, String> {
    let mut o = Options {
        seed: 1,
        count: None,
        from: 0,
        rings: None,
        folder: PathBuf::from("."),
        minutes: 1,
        words: Vec::new(),
    };
    let mut at = arguments.iter();
    while let Some(word) = at.next() {
        if !word.starts_with("--") {
            o.words.push(word.clone());
            continue;
        }
        let value = at.next().ok_or(format!("{word} needs a value"))?;
        let number = || value.parse::<u64>().map_err(|_| format!("{word}: {value} is no number"));
        match word.as_str() {
            "--seed" => o.seed = number()?,
            "--count" => o.count = Some(number()?),
            "--from" => o.from = number()?,
            "--rings" => o.rings = Some(PathBuf::from(value)),
            "--folder" => o.folder = PathBuf::from(value),
            "--minutes" => o.minutes = number()?,
            _ => return Err(format!("{word} is not known")),
        }
    }
    Ok(o)
}

fn main() -> ExitCode {
    let arguments: Vec<String> = std::env::args().skip(1).collect();
    let command = arguments.first().cloned().unwrap_or_default();
    let result = parse(arguments.get(1..).unwrap_or(&[])).and_then(|o| run(&command, &o));
    match result {
        Ok(()) => ExitCode::SUCCESS,
        Err(message) => {
            println!("FAILED: {message}");
            ExitCode::FAILURE
        }
    }
}

fn run(command: &str, o: &Options) -> Result<(), String> {
    match command {
        "examples" if examples::run() => Ok(()),
        "examples" => Err("an example of document 01 comes out otherwise".to_string()),
        "dump" => dump(),
        "list" => list(Path::new(o.words.first().ok_or("list needs an image")?)),
        "rings" => rings(Path::new(o.words.first().ok_or("rings needs a folder")?)),
        "drains" => run_drains(o),
        "tables" => run_tables(o),
        "judged" => run_judged(o),
        "table-rings" => {
            let folder = Path::new(o.words.first().ok_or("table-rings needs a folder")?);
            tables::rings(folder, o.seed, o.count.unwrap_or(2000))
        }
        "meanings" => run_meanings(o),
        "series" => run_series(o),
        "readers" => run_readers(o),
        "stores" => run_stores(o),
        "kept-stores" => kept_stores(o),
        "store-told" => store_told(o),
        "store-damage" => store_damage(o),
        "replays" => run_replays(o),
        "walks" => run_walks(o),
        "back-rings" => {
            let folder = Path::new(o.words.first().ok_or("back-rings needs a folder")?);
            walks::rings(folder, o.seed, o.count.unwrap_or(500))
        }
        "salvages" => run_salvages(o),
        "compares" => run_compares(o),
        "meets" => run_meets(o),
        "values" => run_values(o),
        "ones" => run_ones(o),
        "bits" => {
            let mut tally = Tally::default();
            let tried = values::bits(&mut tally)?;
            println!("bits: {tried} values written, read and compared; every bit, read format and type of each edition tried");
            Ok(())
        }
        "images" => {
            images::run(&mut program(o)?, o.rings.as_deref(), o.seed, o.count.unwrap_or(400))
        }
        "cases" => cases::run(Path::new(o.words.first().ok_or("cases needs a folder")?)),
        "plain" => cases::plain(Path::new(o.words.first().ok_or("plain needs a folder")?)),
        "damaged" => {
            let (rings, _) = real_rings(o)?;
            let mut tally = Tally::default();
            let count = o.count.unwrap_or(10_000);
            let one = |seed, number, tally: &mut Tally| soak::damaged_case(&rings, seed, number, tally);
            run_cases("damaged", o, count, &mut tally, one)?;
            println!("damaged: seed {}, {count} real rings with damage, no difference", o.seed);
            Ok(())
        }
        "soak" => {
            let (rings, folder) = real_rings(o)?;
            soak::run(&mut program(o)?, &rings, folder, o.seed, o.minutes)
        }
        "seeds" => seeds(Path::new(o.words.first().ok_or("seeds needs a folder")?), o),
        "help" => {
            print!("{HELP}");
            Ok(())
        }
        _ => Err(format!("no such command: {command}\n{HELP}")),
    }
}

fn dump() -> Result<(), String> {
    let mut input = Vec::new();
    std::io::stdin().read_to_end(&mut input).map_err(|e| e.to_string())?;
    std::io::stdout().write_all(ring::program_output(&input).as_bytes()).map_err(|e| e.to_string())
}

/// Writes the seeds of the fuzz target, each to a file of its own.
fn seeds(folder: &Path, o: &Options) -> Result<(), String> {
    let rings = o.rings.as_deref().map_or(Ok(Vec::new()), images::images_of)?;
    let seeds = fuzz::seeds(&rings, o.seed, o.count.unwrap_or(600));
    for (name, bytes) in &seeds {
        std::fs::write(folder.join(name), bytes).map_err(|e| format!("{name}: {e}"))?;
    }
    println!("seeds: {} inputs for the fuzz target", seeds.len());
    Ok(())
}

/// The records of an image, each with its answer and the words that are not 0.
fn list(path: &Path) -> Result<(), String> {
    let bytes = std::fs::read(path).map_err(|e| format!("{}: {e}", path.display()))?;
    let image = ring::Image::parse(&bytes).ok_or("fewer than 50 bytes")?;
    println!(
        "head {} tail {} edition {} {}",
        image.head,
        image.tail,
        image.edition,
        drains::describe_attributes(&image.attributes)
    );
    for (tail, record) in records_of(&image)? {
        let kind = u64::from(record::le32(&record, 0));
        print!("{tail}: {} {} bytes", words::type_name(kind), record.len());
        match record::read(&record, image.edition, &image.attributes) {
            Err(refusal) => println!(", refused with {refusal}"),
            Ok(value) => {
                for (word, n) in value.iter().enumerate().skip(1).filter(|(_, n)| **n != 0) {
                    print!(", {} {n:#x}", words::word_name(kind, word));
                }
                println!();
            }
        }
    }
    Ok(())
}

/// The records of an image from tail to head.
fn records_of(image: &ring::Image) -> Result<soak::Records, String> {
    let length = image.ring.len() as u64;
    let mut records = Vec::new();
    let mut tail = image.tail;
    while tail != image.head {
        let byte = |i: u64| image.ring[(tail.wrapping_add(i) % length) as usize];
        let size = u64::from(byte(6)) | u64::from(byte(7)) << 8;
        if size < 8 || size > image.head.wrapping_sub(tail) {
            return Err(format!("size {size} at tail {tail}"));
        }
        records.push((tail, (0..size).map(byte).collect()));
        tail = tail.wrapping_add(size);
    }
    Ok(records)
}

/// The real rings: every record accepted in the image's edition (3 or 4) and in 4, the whole ring drained, and the library's
/// drains, reads and writes of them compared.
fn rings(folder: &Path) -> Result<(), String> {
    let start = Instant::now();
    let mut total = Tally::default();
    let (mut records, mut dirty) = (0, 0);
    for (name, bytes) in images::images_of(folder)? {
        let image = ring::Image::parse(&bytes).ok_or(format!("{name}: fewer than 50 bytes"))?;
        if !(3..=4).contains(&image.edition) || image.ring.len() > 16_384 {
            return Err(format!("{name}: edition {}, ring of {} bytes", image.edition, image.ring.len()));
        }
        let mut kinds = std::collections::BTreeMap::<u64, u64>::new();
        for (tail, record) in records_of(&image).map_err(|e| format!("{name}: {e}"))? {
            let kind = u64::from(record::le32(&record, 0));
            for edition in [image.edition, 4] {
                let answer = record::check(&record, edition, &image.attributes);
                dirty += u64::from(edition == 4 && answer == 44);
                if answer != 0 && answer != 44 {
                    return Err(format!("{name}: the record at tail {tail} is refused with {answer}: {}", guard::hex(&record)));
                }
            }
            *kinds.entry(kind).or_default() += 1;
        }
        drains::real_ring(&name, &image, &mut total)?;
        let count = kinds.values().sum::<u64>();
        values::real_ring(&name, &image, &mut total)?;
        ones::real_ring(&name, &image, &mut total)?;
        let text: Vec<String> = kinds.iter().map(|(k, n)| format!("{} {}", n, words::type_name(*k))).collect();
        println!("{name}: {count} records, all accepted: {}", text.join(", "));
        records += count;
    }
    println!(
        "rings: {records} records of real rings accepted in editions 3 and 4, {dirty} with a dirty name, drained, read, written again and compared, {:.1} s",
        start.elapsed().as_secs_f64()
    );
    Ok(())
}

/// The program that prints images, and its words.
fn program(o: &Options) -> Result<images::Program<'_>, String> {
    let (path, arguments) = o.words.split_first().ok_or("a program is needed: ringdump")?;
    Ok(images::Program { path: Path::new(path), arguments, folder: &o.folder, runs: 0 })
}

/// The real rings of --rings, each with its records.
fn real_rings(o: &Options) -> Result<(Vec<(ring::Image, soak::Records)>, &Path), String> {
    let folder = o.rings.as_deref().ok_or("--rings FOLDER is needed")?;
    let mut rings = Vec::new();
    for (name, bytes) in images::images_of(folder)? {
        let image = ring::Image::parse(&bytes).ok_or(format!("{name}: fewer than 50 bytes"))?;
        let records = records_of(&image).map_err(|e| format!("{name}: {e}"))?;
        rings.push((image, records));
    }
    Ok((rings, folder))
}

/// Runs cases one after the other; a difference ends it and says how to run it again.
fn run_cases(
    command: &str, o: &Options, count: u64, tally: &mut Tally,
    one: impl Fn(u64, u64, &mut Tally) -> Result<(), String>,
) -> Result<(), String> {
    for number in o.from..o.from + count {
        one(o.seed, number, tally).map_err(|difference| {
            format!(
                "seed {}, case {number}: {difference}\nrun it again: reader {command} --seed {} --from {number} --count 1",
                o.seed, o.seed
            )
        })?;
    }
    Ok(())
}

/// A part that is the same in every run from case 0 on, whatever the seed.
fn fixed_part(name: &str, part: fn(&mut Tally) -> Result<u64, String>, tally: &mut Tally) -> Result<u64, String> {
    part(tally).map_err(|difference| format!("{name} (the same in every run, --count 0 runs them alone): {difference}"))
}

/// With a full count every answer and type must have been reached.
fn all_reached(missing: Vec<String>, count: u64, full: u64) -> Result<(), String> {
    if count < full {
        println!("fewer than {full} cases: what was not reached is not counted as a failure");
        return Ok(());
    }
    if missing.is_empty() { Ok(()) } else { Err(missing.join("\n")) }
}

fn run_drains(o: &Options) -> Result<(), String> {
    let start = Instant::now();
    let count = o.count.unwrap_or(200_000);
    let mut tally = Tally::default();
    let crossings = if o.from == 0 { fixed_part("crossings", drains::crossings, &mut tally)? } else { 0 };
    run_cases("drains", o, count, &mut tally, drains::one_case)?;
    tally.print_records();
    tally.print_accepted();
    for call in ["drain", "check", "name copy"] {
        tally.print_answers(call);
    }
    all_reached(tally.missing(drains::MUST, drains::BODY, true), count, 20_000)?;
    println!(
        "drains: seed {}, {count} drains with {} records, {crossings} crossings of the ring's end, no difference, {:.1} s",
        o.seed,
        tally.notes.get("records in journals").unwrap_or(&0),
        start.elapsed().as_secs_f64()
    );
    Ok(())
}

fn run_tables(o: &Options) -> Result<(), String> {
    let start = Instant::now();
    let count = o.count.unwrap_or(100_000);
    let mut tally = Tally::default();
    let places = if o.from == 0 { fixed_part("places of an identifier", tables::places, &mut tally)? } else { 0 };
    run_cases("tables", o, count, &mut tally, tables::one_case)?;
    tally.print_records();
    for call in ["drain with a table", "read one: stop", "read one"] {
        tally.print_answers(call);
    }
    let mut missing = tally.missing(tables::MUST, tables::BODY, false);
    missing.extend(tables::missing_types(&tally));
    all_reached(missing, count, 20_000)?;
    println!(
        "tables: seed {}, {count} drains with {} records, {} of them under one event alone, {places} places by hand, no \
         difference, {:.1} s",
        o.seed,
        tally.notes.get("records in journals").unwrap_or(&0),
        tally.notes.get("records under one event").unwrap_or(&0),
        start.elapsed().as_secs_f64()
    );
    Ok(())
}

fn run_judged(o: &Options) -> Result<(), String> {
    let start = Instant::now();
    let count = o.count.unwrap_or(100_000);
    let mut tally = Tally::default();
    let by_hand = if o.from == 0 { fixed_part("by hand", judged::by_hand, &mut tally)? } else { 0 };
    run_cases("judged", o, count, &mut tally, judged::one_case)?;
    for (call, _) in judged::MUST {
        tally.print_answers(call);
    }
    for note in judged::NUMBERS {
        println!("  {note}: {}", tally.notes.get(note).unwrap_or(&0));
    }
    all_reached(judged::missing(&tally), count, 20_000)?;
    println!(
        "judged: seed {}, {count} records, {by_hand} by hand, no difference, {:.1} s",
        o.seed,
        start.elapsed().as_secs_f64()
    );
    Ok(())
}

fn run_meanings(o: &Options) -> Result<(), String> {
    let count = o.count.unwrap_or(100_000);
    let mut tally = Tally::default();
    let every = if o.from == 0 { fixed_part("every misc", meanings::every_misc, &mut tally)? } else { 0 };
    run_cases("meanings", o, count, &mut tally, meanings::one_case)?;
    all_reached(tally.missing(meanings::MUST, &[], false), every, 71 << 16)?;
    println!("meanings: every misc of types 0 to 70, and {count} wider types and miscs with seed {}, no difference", o.seed);
    Ok(())
}

fn run_series(o: &Options) -> Result<(), String> {
    let start = Instant::now();
    let count = o.count.unwrap_or(20_000);
    let mut tally = Tally::default();
    if o.from == 0 {
        fixed_part("an overwritten record", series::planted, &mut tally)?;
    }
    run_cases("series", o, count, &mut tally, series::one_case)?;
    let mut real = 0;
    if o.rings.is_some() {
        let (rings, _) = real_rings(o)?;
        real = count / 10;
        run_cases("series --rings rings", o, real, &mut tally, |seed, number, tally| series::real_case(&rings, seed, number, tally))?;
    }
    for call in ["series", "series ended", "stopped in the middle"] {
        tally.print_answers(call);
    }
    all_reached(tally.missing(series::MUST, &[], false), count, 10_000)?;
    println!(
        "series: seed {}, {count} series over made rings and {real} over real ones with {} records, no difference, {:.1} s",
        o.seed,
        tally.notes.get("records in series").unwrap_or(&0),
        start.elapsed().as_secs_f64()
    );
    Ok(())
}

fn run_readers(o: &Options) -> Result<(), String> {
    let count = o.count.unwrap_or(100_000);
    let mut tally = Tally::default();
    if o.from == 0 {
        fixed_part("by hand", readers::by_hand, &mut tally)?;
    }
    run_cases("readers", o, count, &mut tally, readers::one_case)?;
    tally.print_answers("publish");
    all_reached(tally.missing(readers::MUST, &[], false), count, 1_000)?;
    println!("readers: seed {}, {count} pairs of tails, {} rings read by two in turn, no difference", o.seed, count.div_euclid(16));
    Ok(())
}

fn run_stores(o: &Options) -> Result<(), String> {
    let start = Instant::now();
    let count = o.count.unwrap_or(50_000);
    let mut tally = Tally::default();
    let (mut by_hand, mut changed) = (0, 0);
    if o.from == 0 {
        by_hand = fixed_part("by hand", stores::by_hand, &mut tally)?;
        changed = fixed_part("every change of a small store", stores::changed, &mut tally)?;
    }
    run_cases("stores", o, count, &mut tally, stores::one_case)?;
    for call in ["read store", "write store"] {
        tally.print_answers(call);
    }
    for reason in store::REASONS {
        println!("  {}: {}", reason.name(), tally.notes.get(reason.name()).unwrap_or(&0));
    }
    all_reached(stores::missing(&tally), count, 5_000)?;
    println!(
        "stores: seed {}, {count} made stores, {by_hand} by hand, {changed} changes and cuts of small stores of both versions; {} \
         that read were written again by the same bytes, {} that were written read back; no difference, {:.1} s",
        o.seed,
        tally.notes.get("stores written again").unwrap_or(&0),
        tally.notes.get("stores read back").unwrap_or(&0),
        start.elapsed().as_secs_f64()
    );
    Ok(())
}

fn kept_stores(o: &Options) -> Result<(), String> {
    let folder = o.words.first().ok_or("kept-stores needs a folder")?;
    let mut tally = Tally::default();
    for line in stores::kept(Path::new(folder), &mut tally)? {
        println!("{line}");
    }
    Ok(())
}

fn store_told(o: &Options) -> Result<(), String> {
    for path in &o.words {
        let bytes = std::fs::read(path).map_err(|e| format!("{path}: {e}"))?;
        println!("{path}: {}", stores::told(&bytes));
    }
    Ok(())
}

fn store_damage(o: &Options) -> Result<(), String> {
    let (path, folder) = match &o.words[..] {
        [path, folder] => (path, folder),
        _ => return Err("store-damage needs a store and a folder".to_string()),
    };
    let bytes = std::fs::read(path).map_err(|e| format!("{path}: {e}"))?;
    for (number, other) in stores::damaged(&bytes, o.seed, o.count.unwrap_or(100)).iter().enumerate() {
        std::fs::write(Path::new(folder).join(format!("{number:05}.store")), other).map_err(|e| e.to_string())?;
    }
    Ok(())
}

fn run_replays(o: &Options) -> Result<(), String> {
    let start = Instant::now();
    let count = o.count.unwrap_or(20_000);
    let mut tally = Tally::default();
    let mut fixed = 0;
    if o.from == 0 {
        fixed += fixed_part("by hand", replays::by_hand, &mut tally)?;
        fixed += fixed_part("every change of one byte", replays::every_byte, &mut tally)?;
    }
    run_cases("replays", o, count, &mut tally, replays::one_case)?;
    tally.print_answers("replay");
    tally.print_notes();
    let mut missing = tally.missing(replays::MUST, &[], false);
    missing.extend(replays::missing_notes(&tally));
    all_reached(missing, count, 2_000)?;
    println!(
        "replays: seed {}, {count} traces and {fixed} by hand and by changes of one byte, no difference, {:.1} s",
        o.seed,
        start.elapsed().as_secs_f64()
    );
    Ok(())
}

fn run_walks(o: &Options) -> Result<(), String> {
    let start = Instant::now();
    let count = o.count.unwrap_or(50_000);
    let mut tally = Tally::default();
    let by_hand = if o.from == 0 { fixed_part("walks by hand", walks::by_hand, &mut tally)? } else { 0 };
    run_cases("walks", o, count, &mut tally, walks::one_case)?;
    tally.print_records();
    for (call, _) in walks::MUST {
        tally.print_answers(call);
    }
    let never = walks::never(&tally);
    if !never.is_empty() {
        return Err(never.join("\n"));
    }
    all_reached(tally.missing(walks::MUST, walks::BODY, false), count, 10_000)?;
    let noted = |what| tally.notes.get(what).copied().unwrap_or(0);
    println!(
        "walks: seed {}, {count} walks with {} records, {} of them across the ring's end, {} in every edition, {by_hand} by hand, \
         no difference, {:.1} s",
        o.seed,
        noted("records in journals"),
        noted("records that cross the ring's end"),
        noted("walks by two editions") / 4,
        start.elapsed().as_secs_f64()
    );
    Ok(())
}

fn run_salvages(o: &Options) -> Result<(), String> {
    let start = Instant::now();
    let count = o.count.unwrap_or(20_000);
    let mut tally = Tally::default();
    let mut fixed = 0;
    if o.from == 0 {
        fixed += fixed_part("by hand", salvages::by_hand, &mut tally)?;
        fixed += fixed_part("every change of one byte", salvages::every_byte, &mut tally)?;
    }
    run_cases("salvages", o, count, &mut tally, salvages::one_case)?;
    tally.print_answers("salvage");
    tally.print_notes();
    let mut missing = tally.missing(salvages::MUST, &[], false);
    missing.extend(salvages::missing_notes(&tally));
    all_reached(missing, count, 2_000)?;
    println!(
        "salvages: seed {}, {count} streams and {fixed} by hand and by changes of one byte, no difference, {:.1} s",
        o.seed,
        start.elapsed().as_secs_f64()
    );
    Ok(())
}

fn run_compares(o: &Options) -> Result<(), String> {
    let start = Instant::now();
    let count = o.count.unwrap_or(20_000);
    let mut tally = Tally::default();
    let mut fixed = 0;
    if o.from == 0 {
        fixed += fixed_part("by hand", compares::by_hand, &mut tally)?;
        fixed += fixed_part("every field", compares::every_field, &mut tally)?;
    }
    run_cases("compares", o, count, &mut tally, compares::one_case)?;
    for call in compares::CALLS {
        tally.print_answers(call);
    }
    tally.print_notes();
    let mut missing = tally.missing(compares::MUST, &[], false);
    missing.extend(compares::missing(&tally));
    all_reached(missing, count, 2_000)?;
    println!(
        "compares: seed {}, {count} pairs of rings and {fixed} by hand and by field; {} fields of known types told, no difference, {:.1} s",
        o.seed,
        tally.fields.keys().filter(|(kind, _)| (1..=21).contains(kind)).count(),
        start.elapsed().as_secs_f64()
    );
    Ok(())
}

fn run_meets(o: &Options) -> Result<(), String> {
    let start = Instant::now();
    let count = o.count.unwrap_or(20_000);
    let mut tally = Tally::default();
    let by_hand = if o.from == 0 { fixed_part("by hand", meets::by_hand, &mut tally)? } else { 0 };
    run_cases("meets", o, count, &mut tally, meets::one_case)?;
    meets::print_notes(&tally);
    all_reached(meets::missing(&tally), count, 2_000)?;
    println!(
        "meets: seed {}, {count} meetings of two requests and {by_hand} by hand, no difference, {:.1} s",
        o.seed,
        start.elapsed().as_secs_f64()
    );
    Ok(())
}

fn run_ones(o: &Options) -> Result<(), String> {
    let start = Instant::now();
    let count = o.count.unwrap_or(100_000);
    let mut tally = Tally::default();
    let places = if o.from == 0 { fixed_part("every place", ones::every_place, &mut tally)? } else { 0 };
    run_cases("ones", o, count, &mut tally, ones::one_case)?;
    for call in ["read one: stop", "read one", "read one: in scratch"] {
        tally.print_answers(call);
    }
    for stop in [8, 9, 10] {
        if tally.answers.contains_key(&("read one: stop", stop)) {
            return Err(format!("the reader of one record stopped with {stop}, which it cannot"));
        }
    }
    all_reached(tally.missing(ones::MUST, &[], false), count, 10_000)?;
    println!(
        "ones: seed {}, {count} rings read record by record, {places} cases at the ring's end, no difference, {:.1} s",
        o.seed,
        start.elapsed().as_secs_f64()
    );
    Ok(())
}

fn run_values(o: &Options) -> Result<(), String> {
    let start = Instant::now();
    let count = o.count.unwrap_or(100_000);
    let mut tally = Tally::default();
    let edges = if o.from == 0 { fixed_part("edges", values::edges, &mut tally)? } else { 0 };
    run_cases("values", o, count, &mut tally, values::one_case)?;
    tally.print_records();
    for call in ["read", "write"] {
        tally.print_answers(call);
    }
    all_reached(tally.missing(values::MUST, drains::BODY, true), count, 20_000)?;
    println!(
        "values: seed {}, {count} records, {} written again and read back, {} of them with a dirty name, \
         {edges} cases at the edges of 40 to 43, no difference, {:.1} s",
        o.seed,
        tally.notes.get("records written again and read back").unwrap_or(&0),
        tally.notes.get("records with a dirty name").unwrap_or(&0),
        start.elapsed().as_secs_f64()
    );
    Ok(())
}
