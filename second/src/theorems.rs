//! Streams as antt theorems: the formal definition's listing of the bytes is this package's.

use crate::listing::listing;

const IMPORTS: &str = "\
use Rattle.std.specs.Prelude.{◌≡◌, refl, [], ◌∷◌}
use Rattle.rules.specs.Listing.{listing, text}
";

pub const PROGRAM: &str = "\
// Made by second's `agree`: listings computed from the rules, held against the second implementation.
#![tactic(auto)]

pub fn zero() -> u64 {
    0
}
";

/// One file of theorems; `first` is the number of the first stream.
pub fn theorem_file(first: usize, streams: &[Vec<u8>]) -> String {
    let mut file = IMPORTS.to_string();
    for (place, stream) in streams.iter().enumerate() {
        file.push('\n');
        file.push_str(&theorem(first + place, stream));
    }
    file
}

/// The file that names the others.
pub fn module_file(count: usize) -> String {
    (0..count)
        .map(|number| format!("pub mod Streams{}\n", number))
        .collect()
}

fn theorem(number: usize, stream: &[u8]) -> String {
    format!(
        "pub stream-{} : listing {} ≡ text \"{}\"\nstream-{} = refl\n",
        number,
        list_of(stream),
        listing(stream).replace('\n', "\\n"),
        number
    )
}

fn list_of(stream: &[u8]) -> String {
    if stream.is_empty() {
        return "[]".to_string();
    }
    let numbers: String = stream.iter().map(|byte| format!("{} ∷ ", byte)).collect();
    format!("({}[])", numbers)
}
