//! Reads one stream from standard input and prints its listing.

use std::io::{self, Read, Write};

fn main() -> io::Result<()> {
    let mut stream = Vec::new();
    io::stdin().lock().read_to_end(&mut stream)?;
    let text = second::listing::listing(&stream);
    io::stdout().write_all(text.as_bytes())
}
