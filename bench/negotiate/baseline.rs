//! The same decision and marks over the same history in plain Rust: std's `HashMap` and `HashSet`, and a heap. The refs are an
//! ordered map, as `MemoryRefs` has them.
#[path = "../history/history.rs"]
mod history;

use history::{arguments, make_id, CommitData, History, ObjectId};
use std::collections::hash_map::Entry;
use std::collections::{BTreeMap, BinaryHeap, HashMap, HashSet};
use std::time::Instant;

struct Held {
    commit: CommitData,
    flags: u8,
}

struct Graph {
    history: History,
    commits: HashMap<ObjectId, Held>,
}

impl Graph {
    fn look_up(&mut self, id: ObjectId) -> Option<i64> {
        match self.commits.entry(id) {
            Entry::Occupied(entry) => Some(entry.get().commit.time),
            Entry::Vacant(entry) => {
                let commit = self.history.commit(&id)?;
                Some(entry.insert(Held { commit, flags: 0 }).commit.time)
            }
        }
    }

    fn mark_found(&mut self, queue: &mut BinaryHeap<(i64, ObjectId)>, id: ObjectId) {
        match self.commits.entry(id) {
            Entry::Occupied(mut entry) => {
                let held = entry.get_mut();
                if held.flags & 1 == 0 {
                    held.flags |= 1;
                    queue.push((held.commit.time, id));
                }
            }
            Entry::Vacant(entry) => {
                if let Some(commit) = self.history.commit(&id) {
                    queue.push((commit.time, id));
                    entry.insert(Held { commit, flags: 1 });
                }
            }
        }
    }

    fn mark_complete(&mut self, ids: &[ObjectId], cutoff: Option<i64>) {
        let mut queue = BinaryHeap::new();
        for &id in ids {
            self.mark_found(&mut queue, id);
        }
        let Some(cutoff) = cutoff else { return };
        while let Some((time, id)) = queue.pop() {
            if time < cutoff {
                return;
            }
            let parents = self.commits.get(&id).map_or(Vec::new(), |held| held.commit.parents.clone());
            for parent in parents {
                self.mark_found(&mut queue, parent);
            }
        }
    }
}

struct Mapping {
    remote: ObjectId,
    _name: Vec<u8>,
    local: Vec<u8>,
}

fn local_name(number: u64) -> Vec<u8> {
    format!("refs/remotes/origin/branch-{number}").into_bytes()
}

struct Decided {
    known: Vec<bool>,
    told: Vec<ObjectId>,
    tips: Vec<ObjectId>,
}

fn decide(graph: &mut Graph, refs: &BTreeMap<Vec<u8>, ObjectId>, targets: &[ObjectId], mappings: &[Mapping]) -> Option<Decided> {
    let mut known = Vec::new();
    let mut cutoff: Option<i64> = None;
    let (mut changed, mut unknown) = (false, false);
    for mapping in mappings {
        let time = graph.look_up(mapping.remote);
        known.push(time.is_some());
        if let Some(time) = time {
            cutoff = Some(cutoff.unwrap_or(0).max(time));
        }
        changed |= refs.get(&mapping.local) != Some(&mapping.remote);
        unknown |= time.is_none();
    }
    if !changed || !unknown {
        return None;
    }
    let ids = targets.to_vec();
    let mut seen = HashSet::new();
    let mut found = Vec::new();
    for &id in &ids {
        if graph.look_up(id).is_some() && seen.insert(id) {
            found.push(id);
        }
    }
    graph.mark_complete(&ids, cutoff);
    let mut told = Vec::new();
    for mapping in mappings {
        if graph.commits.get(&mapping.remote).is_some_and(|held| held.flags & 1 == 1) {
            told.push(mapping.remote);
        }
    }
    let mut tips = Vec::new();
    for id in found {
        tips.push(id);
    }
    Some(Decided { known, told, tips })
}

fn main() {
    let (decides, commits) = arguments("decide");
    let history = History::new(commits);
    let (mut refs, mut targets, mut mappings) = (BTreeMap::new(), Vec::new(), Vec::new());
    for number in 0..commits / 10 {
        let id = make_id(number * 10 + 9);
        targets.push(id);
        refs.insert(local_name(number), id);
        let remote = make_id(if number % 2 == 0 { number } else { number + commits });
        let _name = format!("refs/heads/branch-{number}").into_bytes();
        mappings.push(Mapping { remote, _name, local: local_name(number) });
    }
    if !decides {
        println!("made {} {}", targets.len(), mappings.len());
        return;
    }
    let mut graph = Graph { history, commits: HashMap::new() };
    let start = Instant::now();
    let decided = decide(&mut graph, &refs, &targets, &mappings).expect("something is negotiated");
    let time = start.elapsed();
    let held = graph.commits.len();
    let complete = graph.commits.values().filter(|held| held.flags & 1 == 1).count();
    let known = decided.known.iter().filter(|is_known| **is_known).count();
    println!("{} {held} {complete} {known} {} {}", time.as_micros(), decided.told.len(), decided.tips.len());
}
