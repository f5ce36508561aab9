//! The search of MiniMalloc (M. D. Moffitt, ASPLOS 2023), written anew from its description, to compare with.
//!
//!     minimalloc CAPACITY < instance.csv
//!
//! takes an instance with the columns id,lower,upper,size,alignment,gaps and prints `fits` with the offsets of a layout
//! within the capacity, a line each, or `none`. It runs until it knows.
//!
//! Buffers are placed by rising offset, each as low as the placed ones leave it: every layout can be pushed down to such a
//! canonical one. A choice is given up where a section (the buffers that are live at one moment) can't hold what is still to
//! be placed in it. No buffer is tried so high that another one fits whole below it; nor is another one tried where one
//! with nothing left to place beside it has failed. Which comes next is ordered anew at each node, and what falls apart in
//! time is searched by itself. Three orders break ties, in turn, each for as many nodes, and twice as many in the next round.

use std::cmp::Reverse;
use std::io::Read;

struct Buffer {
    lower: u64,
    upper: u64,
    size: u64,
    alignment: u64,
    gaps: Vec<(u64, u64)>,
    /// The sections in which it is live, rising.
    sections: Vec<usize>,
    /// The buffers with which it shares a section, rising.
    neighbours: Vec<usize>,
}

impl Buffer {
    fn read(line: &str) -> Buffer {
        let fields: Vec<&str> = line.split(',').collect();
        let number = |text: &str| text.parse().expect("a number");
        let gap = |text: &str| {
            let (from, to) = text.split_once('-').expect("a gap");
            (number(from), number(to))
        };
        Buffer {
            lower: number(fields[1]),
            upper: number(fields[2]),
            size: number(fields[3]),
            alignment: number(fields[4]),
            gaps: fields[5].split_whitespace().map(gap).collect(),
            sections: Vec::new(),
            neighbours: Vec::new(),
        }
    }

    fn is_live(&self, t: u64) -> bool {
        self.lower <= t && t < self.upper && !self.gaps.iter().any(|&(from, to)| from <= t && t < to)
    }

    fn aligned(&self, offset: u64) -> u64 {
        (offset + self.alignment - 1) / self.alignment * self.alignment
    }

    fn first_section(&self) -> usize {
        self.sections[0]
    }

    fn last_section(&self) -> usize {
        self.sections[self.sections.len() - 1]
    }
}

/// The sections, without those whose members are all members of another one. Tells each buffer its own.
fn find_sections(buffers: &mut [Buffer]) -> Vec<Vec<usize>> {
    let ends = |b: &Buffer| b.gaps.iter().map(|gap| gap.1).collect::<Vec<_>>();
    let mut starts: Vec<u64> = buffers.iter().flat_map(|b| [vec![b.lower], ends(b)].concat()).collect();
    starts.sort_unstable();
    let live = |t: u64| (0..buffers.len()).filter(|&b| buffers[b].is_live(t)).collect();
    let all: Vec<Vec<usize>> = starts.into_iter().map(live).collect();
    let is_within = |a: &Vec<usize>, b: &Vec<usize>| a.iter().all(|member| b.binary_search(member).is_ok());
    let mut sections: Vec<Vec<usize>> = Vec::new();
    for (at, section) in all.iter().enumerate() {
        let is_in_later = all[at + 1..].iter().any(|later| is_within(section, later));
        if !is_in_later && !sections.iter().any(|kept| is_within(section, kept)) {
            sections.push(section.clone());
        }
    }
    for (s, members) in sections.iter().enumerate() {
        for &b in members {
            buffers[b].sections.push(s);
            buffers[b].neighbours.extend(members.iter().filter(|&&c| c != b));
        }
    }
    for buffer in buffers {
        buffer.neighbours.sort_unstable();
        buffer.neighbours.dedup();
    }
    sections
}

#[derive(PartialEq)]
enum Answer {
    Fits,
    None,
    /// The nodes ran out.
    Spent,
}

enum Change {
    Placed(usize),
    Raised { buffer: usize, from: u64 },
}

struct Search<'a> {
    buffers: &'a [Buffer],
    sections: &'a [Vec<usize>],
    capacity: u64,
    nodes_left: u64,
    /// The place of each buffer in the order that breaks ties.
    rank: Vec<usize>,
    /// The least offset that the placed buffers leave to each; of a placed one its offset.
    low: Vec<u64>,
    is_placed: Vec<bool>,
    /// The bytes that are still to be placed in each section.
    to_place: Vec<u64>,
    /// What was done, for taking it back.
    changes: Vec<Change>,
}

impl Search<'_> {
    /// Decides a part that hangs together in time.
    fn decide(&mut self, part: &[usize]) -> bool {
        let mark = self.changes.len();
        let mut nodes = 1;
        loop {
            for order in ["WAT", "TAW", "TWA"] {
                self.rank = ranks(self.buffers, self.sections, order);
                self.nodes_left = nodes;
                let answer = self.place(part.to_vec(), (0, 0));
                if answer != Answer::Spent {
                    return answer == Answer::Fits;
                }
                self.undo(mark);
            }
            nodes *= 2;
        }
    }

    /// Places a part, no buffer of it before `last` in the order of offsets and ranks.
    fn place(&mut self, mut part: Vec<usize>, last: (u64, usize)) -> Answer {
        if self.nodes_left == 0 {
            return Answer::Spent;
        }
        self.nodes_left -= 1;
        part.sort_unstable_by_key(|&b| (self.low[b], self.rank[b]));
        let least_top = part.iter().map(|&b| self.low[b] + self.buffers[b].size).min().unwrap_or(0);
        for &b in &part {
            let here = (self.low[b], self.rank[b]);
            if here < last {
                continue;
            }
            if self.low[b] >= least_top {
                break;
            }
            let mark = self.changes.len();
            let has_all_beside = self.buffers[b].neighbours.iter().all(|&c| self.is_placed[c]);
            if self.put(b) && self.is_open(&part, self.low[b]) {
                let rest = part.iter().copied().filter(|&c| c != b).collect();
                let answer = self.place_parts(rest, here);
                if answer != Answer::None {
                    return answer;
                }
            }
            self.undo(mark);
            if has_all_beside {
                break;
            }
        }
        Answer::None
    }

    fn place_parts(&mut self, rest: Vec<usize>, last: (u64, usize)) -> Answer {
        for part in parts_of(self.buffers, rest) {
            let answer = self.place(part, last);
            if answer != Answer::Fits {
                return answer;
            }
        }
        Answer::Fits
    }

    /// Puts a buffer at its low and raises those beside it. Answers whether none of them gets too high.
    fn put(&mut self, b: usize) -> bool {
        let buffers = self.buffers;
        let top = self.low[b] + buffers[b].size;
        self.is_placed[b] = true;
        self.changes.push(Change::Placed(b));
        for &s in &buffers[b].sections {
            self.to_place[s] -= buffers[b].size;
        }
        for &c in &buffers[b].neighbours {
            let raised = buffers[c].aligned(top);
            if self.is_placed[c] || self.low[c] >= raised {
                continue;
            }
            if raised + buffers[c].size > self.capacity {
                return false;
            }
            self.changes.push(Change::Raised { buffer: c, from: self.low[c] });
            self.low[c] = raised;
        }
        true
    }

    /// Whether each section of a part holds what is to be placed in it, from its least low and from `offset` on.
    fn is_open(&self, part: &[usize], offset: u64) -> bool {
        let first = part.iter().map(|&b| self.buffers[b].first_section()).min().unwrap_or(0);
        let last = part.iter().map(|&b| self.buffers[b].last_section()).max().unwrap_or(0);
        (first..=last).all(|s| {
            let unplaced = self.sections[s].iter().filter(|&&c| !self.is_placed[c]);
            let floor = unplaced.map(|&c| self.low[c]).min().unwrap_or(0).max(offset);
            self.to_place[s] == 0 || floor + self.to_place[s] <= self.capacity
        })
    }

    fn undo(&mut self, mark: usize) {
        for change in self.changes.split_off(mark).into_iter().rev() {
            match change {
                Change::Raised { buffer, from } => self.low[buffer] = from,
                Change::Placed(b) => {
                    self.is_placed[b] = false;
                    for &s in &self.buffers[b].sections {
                        self.to_place[s] += self.buffers[b].size;
                    }
                }
            }
        }
    }
}

/// The parts into which buffers fall that none of them joins in time.
fn parts_of(buffers: &[Buffer], mut all: Vec<usize>) -> Vec<Vec<usize>> {
    all.sort_unstable_by_key(|&b| buffers[b].first_section());
    let mut parts: Vec<Vec<usize>> = Vec::new();
    let mut last = 0;
    for b in all {
        match parts.last_mut() {
            Some(part) if buffers[b].first_section() <= last => part.push(b),
            _ => parts.push(vec![b]),
        }
        last = last.max(buffers[b].last_section());
    }
    parts
}

/// The place of each buffer by falling width (W), area (A) and bytes of its fullest section (T), in the order named.
fn ranks(buffers: &[Buffer], sections: &[Vec<usize>], order: &str) -> Vec<usize> {
    let bytes = |&s: &usize| sections[s].iter().map(|&b| buffers[b].size).sum::<u64>();
    let keys = |b: &Buffer| -> Vec<u64> {
        let key = |letter| match letter {
            'W' => b.upper - b.lower,
            'A' => (b.upper - b.lower) * b.size,
            _ => b.sections.iter().map(bytes).max().unwrap_or(0),
        };
        order.chars().map(key).collect()
    };
    let mut ordered: Vec<usize> = (0..buffers.len()).collect();
    ordered.sort_by_cached_key(|&b| Reverse(keys(&buffers[b])));
    let mut rank = vec![0; buffers.len()];
    for (place, b) in ordered.into_iter().enumerate() {
        rank[b] = place;
    }
    rank
}

fn main() {
    let capacity = std::env::args().nth(1).and_then(|word| word.parse().ok()).expect("a capacity");
    let mut text = String::new();
    std::io::stdin().read_to_string(&mut text).expect("an instance");
    let mut buffers: Vec<Buffer> = text.lines().skip(1).map(Buffer::read).collect();
    let sections = find_sections(&mut buffers);
    let bytes = |section: &Vec<usize>| section.iter().map(|&b| buffers[b].size).sum();
    let mut search = Search {
        buffers: &buffers,
        sections: &sections,
        capacity,
        nodes_left: 0,
        rank: Vec::new(),
        low: vec![0; buffers.len()],
        is_placed: vec![false; buffers.len()],
        to_place: sections.iter().map(bytes).collect(),
        changes: Vec::new(),
    };
    let all: Vec<usize> = (0..buffers.len()).collect();
    let fits = search.is_open(&all, 0) && parts_of(&buffers, all).iter().all(|part| search.decide(part));
    println!("{}", if fits { "fits" } else { "none" });
    for offset in search.low.iter().filter(|_| fits) {
        println!("{offset}");
    }
}
