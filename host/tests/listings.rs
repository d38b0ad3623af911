//! Whole listings: those of the library and of the second implementation are the same, byte for
//! byte, for a hundred thousand generated streams, document 01's run and the edges. A stream that
//! is listed otherwise is told by its seed, shrunk, and written down as its bytes.

use harbour::{c, listing, LISTING_MOST};
use second::random::Random;
use second::streams::{filled, stream, Kind};

const FIRST_SEED: u64 = 80_000_000;
const STREAMS: u64 = 100_000;

/// The kinds whose length can be asked for.
fn short_kinds() -> Vec<Kind> {
    let asked = |kind: &Kind| *kind != Kind::Long;
    Kind::ALL.into_iter().filter(asked).collect()
}

/// Into one buffer, lent again and again: the wrapper makes a new one for each listing, which is slow
/// under the emulator.
fn differs(stream: &[u8], out: &mut [u8]) -> bool {
    let (room, bytes) = (out.len(), stream.len());
    // SAFETY: the buffer is borrowed here alone, and the stream is a slice.
    let filled = unsafe { c::harbour_listing(out.as_mut_ptr(), room, stream.as_ptr(), bytes) };
    out[..filled] != *second::listing::listing(stream).as_bytes()
}

/// A shorter stream that differs as well: bytes are dropped while it still does, long runs of
/// them first.
fn shrunk(stream: &[u8], out: &mut [u8]) -> Vec<u8> {
    let mut short = stream.to_vec();
    let mut run = short.len() / 2;
    while run > 0 {
        let mut at = 0;
        while at + run <= short.len() {
            let mut tried = short.clone();
            tried.drain(at..at + run);
            if differs(&tried, out) {
                short = tried;
            } else {
                at += run;
            }
        }
        run /= 2;
    }
    short
}

fn same(name: &str, stream: &[u8], out: &mut [u8]) {
    if differs(stream, out) {
        let short = shrunk(stream, out);
        panic!(
            "{name} is listed otherwise; so is {short:?}:\n{}and not\n{}",
            String::from_utf8_lossy(&listing(&short)),
            second::listing::listing(&short)
        );
    }
}

#[test]
fn a_hundred_thousand_streams() {
    let kinds = short_kinds();
    let mut out = vec![0; LISTING_MOST];
    for number in 0..STREAMS {
        let seed = FIRST_SEED + number;
        let kind = kinds[number as usize % kinds.len()];
        let size = [40, 80, 120, 160][number as usize / kinds.len() % 4];
        let name = format!("{kind:?}, seed {seed}, size {size}");
        same(&name, &stream(kind, seed, size), &mut out);
    }
}

#[test]
fn longer_streams_of_every_kind() {
    let mut out = vec![0; LISTING_MOST];
    for kind in short_kinds() {
        for seed in FIRST_SEED..FIRST_SEED + 10 {
            same(
                &format!("{kind:?}, seed {seed}"),
                &stream(kind, seed, 6_000),
                &mut out,
            );
        }
    }
}

#[test]
fn streams_as_long_as_can_be() {
    let mut out = vec![0; LISTING_MOST];
    for seed in FIRST_SEED..FIRST_SEED + 2 {
        for size in [65_535, 65_536, 65_537, 70_000] {
            let stream = filled(Random::new(seed), size);
            same(
                &format!("filled, seed {seed}, size {size}"),
                &stream,
                &mut out,
            );
        }
    }
    assert_eq!(listing(&[0; 65_537]), b"refused 8\n");
}

#[test]
fn the_whole_run() {
    let mut run = vec![1, 2];
    run.extend([0; 15]);
    run.extend([1, 0, 2, 0, 4, 0, 96, 0, 0, 0, 1, 1, 0, 6, 2, 0, 0, 0, 0]);
    run.extend([1, 1, 2, 1, 3, 1, 0, 100, 5, 1, 2, 0, 5, 0]);
    let lines = "open 1\n1 done - 0\n2 in - 0\n3 waits - 0\n4 done - 0\n5 in - 0\n6 done - 0\n\
                 7 done 0 1\n8 in - 0\n9 done - 0\nend 9\n";
    assert_eq!(String::from_utf8(listing(&run)).unwrap(), lines);
    let mut out = vec![0; LISTING_MOST];
    for length in 0..=run.len() {
        same("the whole run, cut", &run[..length], &mut out);
    }
}

/// A buffer that is too short holds the beginning, and what stands after a listing stays.
#[test]
fn buffers_of_every_length() {
    let stream = stream(Kind::Lively, FIRST_SEED, 200);
    let whole = second::listing::listing(&stream).into_bytes();
    for length in 0..whole.len() + 3 {
        let mut out = vec![7; length];
        let (room, bytes) = (out.len(), stream.len());
        // SAFETY: the buffer is owned here alone, and the stream is a slice.
        let filled = unsafe { c::harbour_listing(out.as_mut_ptr(), room, stream.as_ptr(), bytes) };
        assert_eq!(filled, length.min(whole.len()));
        assert_eq!(out[..filled], whole[..filled]);
        assert!(out[filled..].iter().all(|byte| *byte == 7));
    }
}
