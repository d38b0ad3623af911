//! Gives events to rooms in which 0, 4, 16 and 30 jobs wait, for `tools/count-instructions`, and prints a
//! line for each call of the library: the scene, how many waited before it, and what was evaluated; or `-`
//! where the call only sets a scene.
//!
//! Job 0 acts. Jobs from 1 on wait, job k for x ≥ 1000 + k, no two for the same.

use harbour::{Report, Room, Tally};
use second::number;

const WAITING: [u8; 4] = [0, 4, 16, 30];

fn signed(value: i64) -> Vec<u8> {
    let mut bytes = Vec::new();
    number::write(number::from_signed(value), &mut bytes);
    bytes
}

fn arrive(job: u8) -> Vec<u8> {
    vec![1, job]
}

fn admit(job: u8) -> Vec<u8> {
    vec![2, job]
}

fn set_x(job: u8, value: i64) -> Vec<u8> {
    [vec![3, job, 0], signed(value)].concat()
}

/// Waits for x ≥ `key`: one alternative of one atom, all locals 0.
fn wait(job: u8, key: i64) -> Vec<u8> {
    let head = vec![4, job, 0, 0, 0, 0, 1, 1, 0, 6, 0, 0, 0, 0];
    [head, signed(key)].concat()
}

fn leave(job: u8) -> Vec<u8> {
    vec![5, job]
}

/// The one caller of the library: its name ends a count.
#[inline(never)]
fn give(room: &mut Room, tally: &mut Tally, bytes: &[u8]) -> Report {
    room.event(tally, bytes)
}

struct Scene {
    room: Room,
    tally: Tally,
    waiting: u8,
}

impl Scene {
    /// Two measures, x and y, and so many jobs that wait.
    fn new(waiting: u8) -> Scene {
        let mut opening = vec![2, 2, 0, 0, 0, 0, 0, 0, 0, 0, 2, 0, 0, 0, 0, 0, 0];
        opening.extend([0; 8]);
        let (room, _) = Room::open(&opening).expect("an opening");
        let mut scene = Scene {
            room,
            tally: Tally::default(),
            waiting,
        };
        for job in 1..=waiting {
            let key = 1000 + i64::from(job);
            scene.set(&[arrive(job), admit(job), wait(job, key)]);
        }
        scene
    }

    fn set(&mut self, events: &[Vec<u8>]) {
        for bytes in events {
            let report = give(&mut self.room, &mut self.tally, bytes);
            assert!(report.refusal().is_none());
            println!("-");
        }
    }

    fn count(&mut self, name: &str, bytes: &[u8]) {
        let report = give(&mut self.room, &mut self.tally, bytes);
        println!("{name}|{}|{}", self.waiting, report.evaluated);
    }
}

fn main() {
    for waiting in WAITING {
        let enter = [arrive(0), admit(0)];
        let mut scene = Scene::new(waiting);
        scene.count("Arrive", &arrive(0));
        scene.count("Admit, from the door", &admit(0));
        scene.count("Set", &set_x(0, 7));
        scene.count("Wait, true", &wait(0, 7));
        scene.count("refused with 5", &arrive(0));
        scene.count("refused with 1, in a Wait's last number", &wait(0, 7)[..14]);
        scene.count("none left", &[]);
        scene.count("Leave, nobody is called", &leave(0));
        scene.set(&enter);
        scene.count("Wait, false, nobody is called", &wait(0, 5000));
        if waiting == 0 {
            continue;
        }
        let mut scene = Scene::new(waiting);
        scene.set(&enter);
        scene.set(&[set_x(0, 1001)]);
        scene.count("Leave, one is called", &leave(0));
        scene.count("Admit, called, true", &admit(1));
        let mut scene = Scene::new(waiting);
        scene.set(&enter);
        scene.set(&[set_x(0, 1001)]);
        scene.count("Wait, false, one is called", &wait(0, 5000));
        let mut scene = Scene::new(waiting);
        scene.set(&enter);
        scene.set(&[set_x(0, 1001), leave(0)]);
        scene.set(&enter);
        scene.set(&[set_x(0, 0), leave(0)]);
        scene.count(
            "Admit, called, false: sent back, nobody is called",
            &admit(1),
        );
    }
}
