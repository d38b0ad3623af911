//! `agree SEED COUNT [SIZE] DIR` writes a crate of theorems, one for each stream, into DIR.

use std::path::{Path, PathBuf};
use std::process::ExitCode;
use std::{env, fs, io};

use second::figures::Figures;
use second::random::Random;
use second::streams::{filled, stream, Kind};
use second::theorems::{module_file, theorem_file, PROGRAM};

const USAGE: &str = "usage: agree SEED COUNT [SIZE] DIR";
const DEFAULT_SIZE: &str = "300";
const THEOREMS_IN_A_FILE: usize = 20;

struct Order {
    seed: u64,
    count: u64,
    size: usize,
    folder: String,
}

fn order(arguments: &[String]) -> Option<Order> {
    let (seed, count, size, folder) = match arguments {
        [seed, count, folder] => (seed, count, DEFAULT_SIZE, folder),
        [seed, count, size, folder] => (seed, count, size.as_str(), folder),
        _ => return None,
    };
    Some(Order {
        seed: seed.parse().ok()?,
        count: count.parse().ok()?,
        size: size.parse().ok()?,
        folder: folder.clone(),
    })
}

/// Kind Long stands here for streams of exactly the size asked for.
fn stream_of(kind: Kind, seed: u64, size: usize) -> Vec<u8> {
    match kind {
        Kind::Long => filled(Random::new(seed), size),
        _ => stream(kind, seed, size),
    }
}

fn kind_of(number: u64) -> Kind {
    Kind::ALL[(number % Kind::ALL.len() as u64) as usize]
}

fn write_crate(folder: &Path, streams: &[Vec<u8>]) -> io::Result<()> {
    let specs = folder.join("specs");
    let source = folder.join("src");
    fs::create_dir_all(&specs)?;
    fs::create_dir_all(&source)?;
    fs::write(source.join("lib.rt"), PROGRAM)?;
    let files = streams.chunks(THEOREMS_IN_A_FILE);
    fs::write(specs.join("Lib.antt"), module_file(files.len()))?;
    remove_left_over(&specs, files.len())?;
    for (number, part) in files.enumerate() {
        let text = theorem_file(number * THEOREMS_IN_A_FILE, part);
        fs::write(streams_file(&specs, number), text)?;
    }
    Ok(())
}

fn streams_file(specs: &Path, number: usize) -> PathBuf {
    specs.join(format!("Streams{}.antt", number))
}

/// Files of an earlier, larger run would be in the folder without a line that names them.
fn remove_left_over(specs: &Path, first: usize) -> io::Result<()> {
    let mut number = first;
    while streams_file(specs, number).exists() {
        fs::remove_file(streams_file(specs, number))?;
        number += 1;
    }
    Ok(())
}

fn summary(order: &Order, streams: &[Vec<u8>]) -> String {
    let mut text = String::new();
    for kind in Kind::ALL {
        let of_kind = (0..order.count).filter(|number| kind_of(*number) == kind);
        text.push_str(&format!("{} {}, ", kind.name(), of_kind.count()));
    }
    text + &Figures::of(streams).to_string()
}

fn main() -> ExitCode {
    let arguments: Vec<String> = env::args().skip(1).collect();
    let order = match order(&arguments) {
        Some(order) => order,
        None => {
            eprintln!("{}", USAGE);
            return ExitCode::FAILURE;
        }
    };
    let streams: Vec<Vec<u8>> = (0..order.count)
        .map(|number| stream_of(kind_of(number), order.seed.wrapping_add(number), order.size))
        .collect();
    if let Err(error) = write_crate(Path::new(&order.folder), &streams) {
        eprintln!("agree: {}", error);
        return ExitCode::FAILURE;
    }
    println!("{}", summary(&order, &streams));
    ExitCode::SUCCESS
}
