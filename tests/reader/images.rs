//! The program ringdump over images: what it prints against what the independent reader prints.

use crate::guard::hex;
use crate::made::{drain_case, Random};
use crate::ring::{program_output, Image};
use crate::rules::Attributes;
use std::fs::{self, File};
use std::io::Write;
use std::path::{Path, PathBuf};
use std::process::{Command, Stdio};

pub struct Program<'p> {
    pub path: &'p Path,
    pub arguments: &'p [String],
    pub folder: &'p Path,
    pub runs: u64,
}

impl Program<'_> {
    fn command(&self) -> Command {
        let mut command = Command::new(self.path);
        command.args(self.arguments).stdout(Stdio::piped()).stderr(Stdio::piped());
        command
    }

    /// Runs it over one input, from a file or in pieces through a pipe, and compares.
    fn compare(&mut self, name: &str, input: &[u8], pieces: Option<usize>) -> Result<(), String> {
        let file = self.folder.join("input.img");
        fs::write(&file, input).map_err(|e| format!("{}: {e}", file.display()))?;
        let failed = |e: std::io::Error| format!("{}: {e}", self.path.display());
        let output = match pieces {
            None => self.command().stdin(File::open(&file).map_err(failed)?).output().map_err(failed)?,
            Some(bytes) => {
                let mut child = self.command().stdin(Stdio::piped()).spawn().map_err(failed)?;
                let mut pipe = child.stdin.take().unwrap();
                for piece in input.chunks(bytes) {
                    // A program may end before it has read all: what it prints decides.
                    if pipe.write_all(piece).is_err() {
                        break;
                    }
                }
                drop(pipe);
                child.wait_with_output().map_err(failed)?
            }
        };
        self.runs += 1;
        let due = program_output(input);
        if output.stdout != due.as_bytes() || !output.status.success() {
            let kept = self.folder.join("difference.img");
            fs::write(&kept, input).map_err(|e| e.to_string())?;
            let got = String::from_utf8_lossy(&output.stdout);
            let line = due.lines().zip(got.lines()).take_while(|(a, b)| a == b).count();
            return Err(format!(
                "{name}: ringdump prints something else (status {}; the input is kept as {})\n  from line {}\n  \
                 ringdump:    {}\n  independent: {}\n  stderr: {}\n  input begins {}",
                output.status,
                kept.display(),
                line + 1,
                got.lines().nth(line).unwrap_or("(nothing)"),
                due.lines().nth(line).unwrap_or("(nothing)"),
                String::from_utf8_lossy(&output.stderr),
                hex(&input[..input.len().min(50)])
            ));
        }
        Ok(())
    }
}

/// All images of a folder, in the order of their names.
pub fn images_of(folder: &Path) -> Result<Vec<(String, Vec<u8>)>, String> {
    let entries = fs::read_dir(folder).map_err(|e| format!("{}: {e}", folder.display()))?;
    let mut paths: Vec<PathBuf> = entries.filter_map(|e| e.ok()).map(|e| e.path()).collect();
    paths.retain(|p| p.extension().map_or(false, |e| e == "img"));
    paths.sort();
    if paths.is_empty() {
        return Err(format!("{}: there are no images", folder.display()));
    }
    paths
        .iter()
        .map(|p| {
            let name = p.file_name().unwrap().to_string_lossy().to_string();
            fs::read(p).map(|bytes| (name, bytes)).map_err(|e| format!("{}: {e}", p.display()))
        })
        .collect()
}

pub fn run(program: &mut Program, rings: Option<&Path>, seed: u64, count: u64) -> Result<(), String> {
    lengths(program)?;
    let by_length = program.runs;
    for number in 0..count {
        one_image(program, seed, number)?;
    }
    let made = program.runs - by_length;
    if let Some(folder) = rings {
        for (name, bytes) in images_of(folder)? {
            program.compare(&name, &bytes, None)?;
            for edition in [0, 1, 2, 3, 4, 5] {
                let mut other = bytes.clone();
                other[48] = edition;
                program.compare(&format!("{name} in edition {edition}"), &other, None)?;
            }
        }
    }
    println!(
        "ringdump: {by_length} inputs by length, {made} made images, {} runs over real rings, all printed as due",
        program.runs - by_length - made
    );
    Ok(())
}

/// One made image, at times in pieces.
pub fn one_image(program: &mut Program, seed: u64, number: u64) -> Result<(), String> {
    let mut r = Random::new(seed, number);
    let case = loop {
        let case = drain_case(&mut r);
        if case.ring.len() <= 16_384 {
            break case;
        }
    };
    let pieces = if number % 8 == 0 { Some(1 + r.below(200) as usize) } else { None };
    program.compare(&format!("seed {seed}, image {number}"), &case.image().bytes(), pieces)
}

/// Inputs below 50 bytes, of just 50, and rings of every kind of length.
fn lengths(program: &mut Program) -> Result<(), String> {
    let full = Image {
        head: 8,
        tail: 0,
        attributes: Attributes { sample_type: 2, sample_id_all: 1, ..Attributes::EMPTY },
        edition: 3,
        ring: [&[0x0e, 0, 0, 0, 0, 0x20, 8, 0][..], &[0; 56]].concat(),
    };
    let bytes = full.bytes();
    for length in [0, 1, 7, 8, 16, 48, 49, 50, 51, 58, 82, 113, 114] {
        program.compare(&format!("input of {length} bytes"), &bytes[..length], None)?;
    }
    let mut ring_lengths = vec![63, 65, 72, 96, 120, 127, 129, 192, 1000, 4095, 4097, 12_288, 16_383];
    ring_lengths.extend([16_385, 16_392, 32_768, 65_536, 1_048_576, 1_048_577, 2_097_152]);
    ring_lengths.extend((6..=14).map(|power| 1usize << power));
    for length in ring_lengths {
        for (head, tail) in [(8, 0), (0, 0), (u64::MAX, 5), (8 + (1 << 40), 1 << 40)] {
            let mut ring = full.ring.clone();
            ring.resize(length, 0);
            let image = Image { head, tail, ring, edition: 3, attributes: full.attributes };
            program.compare(&format!("ring of {length} bytes, tail {tail}"), &image.bytes(), None)?;
        }
    }
    // sample_id_all is any byte that is not zero
    for byte in [0, 1, 2, 128, 255] {
        let mut bytes = bytes.clone();
        bytes[49] = byte;
        program.compare(&format!("sample_id_all {byte}"), &bytes, Some(7))?;
    }
    // a full ring of the shortest records: the longest print
    let ring = [0x0e, 0, 0, 0, 0, 0, 8, 0].repeat(2048);
    let image = Image { head: 4, tail: 4u64.wrapping_sub(16_384), ring, edition: 3, attributes: Attributes::EMPTY };
    program.compare("a full ring, misaligned", &image.bytes(), None)?;
    let image = Image { head: 8, tail: 8u64.wrapping_sub(16_384), ..image };
    program.compare("a full ring of switches", &image.bytes(), Some(4096))
}
