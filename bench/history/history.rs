//! The same history in plain Rust, in an ordered map as `MemoryObjects` has it, which writes down what it is asked for too.
use std::collections::BTreeMap;

#[derive(Clone, Copy, PartialEq, Eq, PartialOrd, Ord, Hash)]
pub struct ObjectId {
    bytes: [u8; 20],
}

pub struct CommitData {
    pub time: i64,
    pub parents: Vec<ObjectId>,
}

fn mix(number: u64) -> u64 {
    let a = number.wrapping_mul(0x9E37_79B9_7F4A_7C15);
    let b = (a ^ (a >> 30)).wrapping_mul(0xBF58_476D_1CE4_E5B9);
    b ^ (b >> 27)
}

pub fn make_id(number: u64) -> ObjectId {
    let mut bytes = [0; 20];
    bytes[..8].copy_from_slice(&mix(number).to_be_bytes());
    bytes[8..16].copy_from_slice(&mix(number ^ 0x5555_5555).to_be_bytes());
    bytes[16..].copy_from_slice(&number.to_be_bytes()[4..]);
    ObjectId { bytes }
}

pub struct History {
    commits: BTreeMap<ObjectId, CommitData>,
    pub looked_up: Vec<ObjectId>,
}

impl History {
    pub fn new(commits: u64) -> History {
        let mut history = History { commits: BTreeMap::new(), looked_up: Vec::new() };
        for number in 0..commits {
            history.add(number);
        }
        history
    }

    fn add(&mut self, number: u64) {
        let mut parents = Vec::new();
        if 0 < number {
            parents.push(make_id(number - 1));
            if number % 10 == 0 {
                parents.push(make_id(number - 1 - mix(number) % number.min(1000)));
            }
        }
        self.commits.insert(make_id(number), CommitData { time: number as i64, parents });
    }

    pub fn commit(&mut self, id: &ObjectId) -> Option<CommitData> {
        self.looked_up.push(*id);
        let commit = self.commits.get(id)?;
        Some(CommitData { time: commit.time, parents: commit.parents.clone() })
    }
}

/// What a program was told: whether it is to run, or to make its input alone; and how many commits there are.
pub fn arguments(mode: &str) -> (bool, u64) {
    let (mut runs, mut commits) = (false, 1_000_000);
    for argument in std::env::args() {
        if argument == mode {
            runs = true;
        } else if let Ok(number) = argument.parse() {
            commits = number;
        }
    }
    (runs, commits)
}
