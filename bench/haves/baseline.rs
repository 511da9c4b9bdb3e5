//! The same haves over the same history in plain Rust: std's `HashMap` of commits and `BinaryHeap`.
#[path = "../history/history.rs"]
mod history;

use history::{arguments, make_id, CommitData, History, ObjectId};
use std::cmp::Reverse;
use std::collections::hash_map::Entry;
use std::collections::{BinaryHeap, HashMap};
use std::time::Instant;

const COMMON: u8 = 2;
const COMMON_REF: u8 = 4;
const SEEN: u8 = 8;
const POPPED: u8 = 16;

struct Held {
    commit: CommitData,
    flags: u8,
}

struct Consecutive {
    objects: History,
    held: HashMap<ObjectId, Held>,
    queue: BinaryHeap<(i64, Reverse<u64>, ObjectId)>,
    came: u64,
    uncommon: usize,
}

impl Consecutive {
    fn push(&mut self, id: ObjectId, marks: u8) {
        let held = match self.held.entry(id) {
            Entry::Occupied(entry) => entry.into_mut(),
            Entry::Vacant(entry) => {
                let Some(commit) = self.objects.commit(&id) else { return };
                entry.insert(Held { commit, flags: 0 })
            }
        };
        if held.flags & SEEN != 0 {
            return;
        }
        held.flags |= SEEN | marks;
        if held.flags & COMMON == 0 {
            self.uncommon += 1;
        }
        self.queue.push((held.commit.time, Reverse(self.came), id));
        self.came += 1;
    }

    fn spread(&mut self, id: ObjectId) {
        let mut due = vec![id];
        while let Some(id) = due.pop() {
            let Some(held) = self.held.get(&id) else { continue };
            if held.flags & SEEN == 0 {
                self.push(id, 0);
                continue;
            }
            for parent in held.commit.parents.clone() {
                let Some(held) = self.held.get_mut(&parent) else { continue };
                if held.flags & COMMON == 0 {
                    held.flags |= COMMON;
                    if held.flags & (SEEN | POPPED) == SEEN {
                        self.uncommon -= 1;
                    }
                    due.push(parent);
                }
            }
        }
    }

    fn next_have(&mut self) -> Option<ObjectId> {
        while self.uncommon > 0 {
            let (_, _, id) = self.queue.pop()?;
            let Some(held) = self.held.get_mut(&id) else { continue };
            held.flags |= POPPED;
            let flags = held.flags;
            let parents = held.commit.parents.clone();
            if flags & COMMON == 0 {
                self.uncommon -= 1;
            }
            let spreads = flags & (COMMON | COMMON_REF) != 0;
            for parent in parents {
                self.push(parent, if spreads { COMMON } else { 0 });
                if spreads {
                    self.spread(parent);
                }
            }
            if flags & COMMON == 0 {
                return Some(id);
            }
        }
        None
    }
}

fn main() {
    let (walks, commits) = arguments("walk");
    let objects = History::new(commits);
    if !walks {
        println!("made {commits}");
        return;
    }
    let tip = make_id(commits - 1);
    let start = Instant::now();
    let mut negotiator = Consecutive { objects, held: HashMap::new(), queue: BinaryHeap::new(), came: 0, uncommon: 0 };
    negotiator.push(tip, 0);
    let mut haves = 0;
    while negotiator.next_have().is_some() {
        haves += 1;
    }
    let time = start.elapsed();
    println!("{} {haves} {}", time.as_micros(), negotiator.objects.looked_up.len());
}
