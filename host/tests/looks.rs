//! What a host may look at, over any numbers that an array can hold.

use harbour::c::{harbour_inside, harbour_standing, harbour_value};
use harbour::{JOBS, VARIABLES};
use second::random::Random;

const FIRST_SEED: u64 = 85_000_000;
const INSIDE: u8 = 2;

/// Standings, and sometimes bytes that stand for none.
fn standings(random: &mut Random) -> [u8; JOBS] {
    let kinds = random.pick(&[2, 3, 5, 5, 256]);
    [(); JOBS].map(|()| random.below(kinds) as u8)
}

#[test]
fn standing_of_every_number() {
    for seed in FIRST_SEED..FIRST_SEED + 100 {
        let standings = standings(&mut Random::new(seed));
        for job in 0..=255 {
            // SAFETY: it is lent a reference, and requires nothing else.
            let standing = unsafe { harbour_standing(&standings, job) };
            let right = standings.get(usize::from(job)).copied().unwrap_or(0);
            assert_eq!(standing, right, "seed {seed}, job {job}");
        }
    }
}

#[test]
fn the_first_that_stands_inside_or_nobody() {
    for seed in FIRST_SEED..FIRST_SEED + 1_000 {
        let mut random = Random::new(seed);
        let mut standings = standings(&mut random);
        if random.once_in(2) {
            // As in a room: one at most.
            standings.iter_mut().for_each(|one| *one = (*one).min(1));
            standings[random.below(JOBS)] = random.pick(&[INSIDE, 3]);
        }
        // SAFETY: it is lent a reference, and requires nothing else.
        let inside = unsafe { harbour_inside(&standings) };
        let right = standings.iter().position(|one| *one == INSIDE);
        assert_eq!(usize::from(inside), right.unwrap_or(JOBS), "seed {seed}");
    }
}

#[test]
fn value_of_every_number() {
    for seed in FIRST_SEED..FIRST_SEED + 100 {
        let mut random = Random::new(seed);
        let values = [(); VARIABLES].map(|()| {
            let any = random.bits() as i64;
            random.pick(&[0, -1, 1_000_000, -1_000_000, i64::MIN, i64::MAX, any])
        });
        for variable in 0..=255 {
            // SAFETY: it is lent a reference, and requires nothing else.
            let value = unsafe { harbour_value(&values, variable) };
            let right = values.get(usize::from(variable)).copied().unwrap_or(0);
            assert_eq!(value, right, "seed {seed}, variable {variable}");
        }
    }
}
