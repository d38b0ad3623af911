//! `streams KIND|mixed SEED COUNT SIZE DIR` writes streams 0000.bin, .. and listings 0000.txt, ..

use std::path::Path;
use std::process::ExitCode;
use std::{env, fs, io};

use second::listing::listing;
use second::streams::{mixed, stream, Kind};

const USAGE: &str = "usage: streams KIND|mixed SEED COUNT SIZE DIR";

struct Order {
    /// None is mixed.
    kind: Option<Kind>,
    seed: u64,
    count: u64,
    size: usize,
    folder: String,
}

fn order(arguments: &[String]) -> Option<Order> {
    if arguments.len() != 5 {
        return None;
    }
    let kind = if arguments[0] == "mixed" {
        None
    } else {
        Some(Kind::named(&arguments[0])?)
    };
    Some(Order {
        kind,
        seed: arguments[1].parse().ok()?,
        count: arguments[2].parse().ok()?,
        size: arguments[3].parse().ok()?,
        folder: arguments[4].clone(),
    })
}

fn write_streams(order: &Order) -> io::Result<()> {
    let folder = Path::new(&order.folder);
    fs::create_dir_all(folder)?;
    for number in 0..order.count {
        let seed = order.seed.wrapping_add(number);
        let bytes = match order.kind {
            Some(kind) => stream(kind, seed, order.size),
            None => mixed(seed, order.size),
        };
        fs::write(folder.join(format!("{:04}.txt", number)), listing(&bytes))?;
        fs::write(folder.join(format!("{:04}.bin", number)), bytes)?;
    }
    Ok(())
}

fn main() -> ExitCode {
    let arguments: Vec<String> = env::args().skip(1).collect();
    let order = match order(&arguments) {
        Some(order) => order,
        None => {
            eprintln!("{}", USAGE);
            return ExitCode::FAILURE;
        }
    };
    match write_streams(&order) {
        Ok(()) => ExitCode::SUCCESS,
        Err(error) => {
            eprintln!("streams: {}", error);
            ExitCode::FAILURE
        }
    }
}
