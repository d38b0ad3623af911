//! Searches an index once for each scene, for `tools/count-instructions`, and prints a line for
//! each: the scene, how many measures there are, how many jobs wait, who was called and how many
//! alternatives were evaluated. The first search, named `-`, is one while nobody waits: what it
//! takes is nearly all copying, of the arrays that are lent into the structs that are searched.

use probes::index::Index;
use probes::written::written;
use second::condition::{Atom, Condition, Operator};
use second::limits::VARIABLES;
use second::record::Opening;

/// Jobs wait, numbered from 1, each for something of its own. Measure 0 is x and measure 1 is y.
struct Scene {
    name: &'static str,
    /// The atoms of a job by its number, and the number of the last.
    atoms: fn(i64, i64) -> Vec<Atom>,
    /// The values, by the number of the last job.
    x: fn(i64) -> i64,
    y: i64,
}

const SCENES: [Scene; 7] = [
    Scene {
        name: "x = k, none true",
        atoms: equality,
        x: |_| 0,
        y: 0,
    },
    Scene {
        name: "x = k, the last true",
        atoms: equality,
        x: |last| last,
        y: 0,
    },
    Scene {
        name: "x ≥ k and y ≠ 0, no tag holds",
        atoms: threshold,
        x: |_| 0,
        y: 0,
    },
    Scene {
        name: "x ≥ k and y ≠ 0, one true",
        atoms: threshold,
        x: |_| 1,
        y: 1,
    },
    Scene {
        name: "x ≥ k and y ≠ 0, all tags hold, none true",
        atoms: threshold,
        x: |last| last,
        y: 0,
    },
    Scene {
        name: "x ≠ 0 and y ≠ k, none true",
        atoms: |number, _| untagged(0, number),
        x: |_| 0,
        y: 0,
    },
    Scene {
        name: "x ≠ 0 and y ≠ k, the last true",
        atoms: |number, last| untagged(if number < last { last } else { 0 }, number),
        x: |last| last,
        y: 0,
    },
];

fn equality(number: i64, _: i64) -> Vec<Atom> {
    vec![Atom::new(0, Operator::Equal, number)]
}

fn threshold(number: i64, _: i64) -> Vec<Atom> {
    vec![
        Atom::new(0, Operator::GreaterOrEqual, number),
        Atom::new(1, Operator::NotEqual, 0),
    ]
}

fn untagged(x: i64, y: i64) -> Vec<Atom> {
    vec![
        Atom::new(0, Operator::NotEqual, x),
        Atom::new(1, Operator::NotEqual, y),
    ]
}

/// The first search's.
const NOBODY: Scene = Scene {
    name: "-",
    atoms: equality,
    x: |_| 0,
    y: 0,
};

fn main() {
    play(&NOBODY, 2, 0);
    for scene in &SCENES {
        for measures in [2, 16] {
            for waiting in [4, 16, 31] {
                play(scene, measures, waiting);
            }
        }
    }
}

fn play(scene: &Scene, measures: usize, waiting: usize) {
    let last = waiting as i64;
    let row = |measure: usize| {
        let mut row = [0; VARIABLES];
        row[measure % VARIABLES] = 1;
        row
    };
    let mut values = [0; VARIABLES];
    values[0] = (scene.x)(last);
    values[1] = scene.y;
    let mut index = Index::new(&Opening {
        measures: (0..measures).map(row).collect(),
        values,
    });
    for job in 0..waiting {
        let condition = Condition::new(vec![(scene.atoms)(job as i64 + 1, last)]);
        index.prepare(job, &written(&condition), job as u32);
        index.join(job);
    }
    let answer = index.search();
    let called = match answer.calls {
        0 => "-".to_string(),
        _ => answer.job.to_string(),
    };
    let (name, evaluated) = (scene.name, answer.evaluated);
    println!("{name}|{measures}|{waiting}|{called}|{evaluated}");
}
