//! The same walk over the same history in plain Rust: std's `HashMap` of commits and a heap.
#[path = "../history/history.rs"]
mod history;

use history::{arguments, make_id, CommitData, History, ObjectId};
use std::collections::hash_map::Entry;
use std::collections::{BinaryHeap, HashMap};
use std::time::Instant;

struct Held {
    commit: CommitData,
    flags: u8,
}

struct Graph {
    history: History,
    commits: HashMap<ObjectId, Held>,
}

impl Graph {
    fn mark_found(&mut self, queue: &mut BinaryHeap<(i64, ObjectId)>, id: ObjectId) {
        match self.commits.entry(id) {
            Entry::Occupied(mut entry) => {
                let held = entry.get_mut();
                if held.flags & 1 == 0 {
                    held.flags |= 1;
                    queue.push((held.commit.time, id));
                }
            }
            Entry::Vacant(entry) => {
                if let Some(commit) = self.history.commit(&id) {
                    queue.push((commit.time, id));
                    entry.insert(Held { commit, flags: 1 });
                }
            }
        }
    }

    fn mark_complete(&mut self, ids: &[ObjectId], cutoff: i64) {
        let mut queue = BinaryHeap::new();
        for &id in ids {
            self.mark_found(&mut queue, id);
        }
        while let Some((time, id)) = queue.pop() {
            if time < cutoff {
                return;
            }
            let parents = self.commits.get(&id).map_or(Vec::new(), |held| held.commit.parents.clone());
            for parent in parents {
                self.mark_found(&mut queue, parent);
            }
        }
    }
}

fn main() {
    let (walks, commits) = arguments("walk");
    let history = History::new(commits);
    let step = (commits / 10_000).max(1);
    let tips: Vec<ObjectId> = (0..commits).filter(|number| number % step == step - 1).map(make_id).collect();
    if !walks {
        println!("made {} refs", tips.len());
        return;
    }
    let mut graph = Graph { history, commits: HashMap::new() };
    let start = Instant::now();
    graph.mark_complete(&tips, (commits / 2) as i64);
    let time = start.elapsed();
    let held = graph.commits.len();
    let complete = graph.commits.values().filter(|held| held.flags & 1 == 1).count();
    println!("{} {held} {complete}", time.as_micros());
}
