// Plain Rust for comparison with the command `cube` of `mvopt opt NET SCRIPT`; nothing is proved of it. It reads a network of binary
// tables, each with one output, on standard input, takes the cube that saves the most literals out of all lines, again and again,
// until none saves, and prints how many cubes it took out, how many literals are left, and a checksum of the cubes. What two lines
// have in common is kept with what it saves at most: no more lines have an old part after a division than before it, so a heap of
// such bounds is enough, and only the greatest is counted anew.
use std::cmp::Reverse;
use std::collections::{BinaryHeap, HashMap, HashSet};
use std::hash::{BuildHasherDefault, Hasher};
use std::io::Read;

type Literal = (u32, u8);
type Cube = Vec<Literal>;

#[derive(Default, Clone, Copy)]
struct Fx(u64);
impl Hasher for Fx {
    fn finish(&self) -> u64 {
        self.0
    }
    fn write(&mut self, bytes: &[u8]) {
        for byte in bytes {
            self.write_u64(*byte as u64);
        }
    }
    fn write_u8(&mut self, x: u8) {
        self.write_u64(x as u64);
    }
    fn write_u32(&mut self, x: u32) {
        self.write_u64(x as u64);
    }
    fn write_usize(&mut self, x: usize) {
        self.write_u64(x as u64);
    }
    fn write_u64(&mut self, x: u64) {
        let m = ((self.0 ^ x) as u128).wrapping_mul(0x9e37_79b9_7f4a_7c15_f39c_c060_5ced_c835);
        self.0 = (m as u64) ^ ((m >> 64) as u64);
    }
}
type Map<K, V> = HashMap<K, V, BuildHasherDefault<Fx>>;
type Set<K> = HashSet<K, BuildHasherDefault<Fx>>;

#[derive(Default)]
struct State {
    lines: Vec<Cube>,
    next: u32,
    holders: Map<Literal, Vec<u32>>,
    known: Set<Cube>,
    heap: BinaryHeap<(u64, Reverse<Cube>)>,
}

fn read(text: &str) -> State {
    let mut state = State::default();
    let mut numbers: HashMap<String, u32> = HashMap::new();
    let mut columns: Vec<u32> = Vec::new();
    for line in text.lines() {
        let words: Vec<&str> = line.split(' ').filter(|w| !w.is_empty() && *w != "->").collect();
        match words.first() {
            Some(&".inputs") | Some(&".outputs") | Some(&".table") => {
                columns.clear();
                for word in &words[1..] {
                    let next = numbers.len() as u32;
                    columns.push(*numbers.entry(word.to_string()).or_insert(next));
                }
            }
            Some(word) if !word.starts_with('.') => {
                let sets = words[..words.len() - 1].iter().zip(&columns).filter(|(w, _)| **w != "-");
                let mut cube: Cube = sets.map(|(w, n)| (*n, 1 << (w.as_bytes()[0] - b'0'))).collect();
                cube.sort_unstable();
                state.lines.push(cube);
            }
            _ => {}
        }
    }
    state.next = numbers.len() as u32;
    state
}

fn common(a: &[Literal], b: &[Literal]) -> Cube {
    let (mut i, mut j, mut both) = (0, 0, Vec::new());
    while i < a.len() && j < b.len() {
        match a[i].cmp(&b[j]) {
            std::cmp::Ordering::Less => i += 1,
            std::cmp::Ordering::Greater => j += 1,
            std::cmp::Ordering::Equal => {
                both.push(a[i]);
                i += 1;
                j += 1;
            }
        }
    }
    both
}

fn has_each(cube: &[Literal], part: &[Literal]) -> bool {
    let mut rest = cube.iter();
    part.iter().all(|literal| rest.any(|other| other == literal))
}

impl State {
    fn holding(&self, part: &[Literal]) -> Vec<u32> {
        let places = part.iter().map(|l| &self.holders[l]).min_by_key(|places| places.len()).unwrap();
        let has = |place: &u32| has_each(&self.lines[*place as usize], part);
        places.iter().copied().filter(has).collect()
    }

    fn saved(&self, part: &[Literal]) -> u64 {
        let (lines, literals) = (self.holding(part).len() as u64, part.len() as u64);
        (lines * (literals - 1)).saturating_sub(literals)
    }

    // what the line has in common with each other one of at least two literals is known from now on
    fn meet(&mut self, place: u32, shared: &mut Map<u32, u32>) {
        shared.clear();
        for literal in &self.lines[place as usize] {
            for other in self.holders.get(literal).into_iter().flatten() {
                *shared.entry(*other).or_insert(0) += 1;
            }
        }
        for (other, count) in shared.iter() {
            if *other == place || *count < 2 {
                continue;
            }
            let part = common(&self.lines[place as usize], &self.lines[*other as usize]);
            if self.known.insert(part.clone()) {
                let saved = self.saved(&part);
                if saved > 0 {
                    self.heap.push((saved, Reverse(part)));
                }
            }
        }
    }

    fn is_meet(&self, places: &[u32], part: &[Literal]) -> bool {
        let line = |place: &u32| &self.lines[*place as usize];
        let is = |i: usize| places[i + 1..].iter().any(|other| common(line(&places[i]), line(other)).len() == part.len());
        (0..places.len()).any(is)
    }

    fn best(&mut self) -> Option<Cube> {
        while let Some((bound, Reverse(part))) = self.heap.pop() {
            let saved = self.saved(&part);
            if saved < bound {
                if saved > 0 {
                    self.heap.push((saved, Reverse(part)));
                }
            } else if self.is_meet(&self.holding(&part), &part) {
                return Some(part);
            } else {
                self.known.remove(&part);
            }
        }
        None
    }

    fn take_out(&mut self, part: Cube) {
        let mut places = self.holding(&part);
        let new = (self.next, 2);
        self.next += 1;
        for place in &places {
            let line = &mut self.lines[*place as usize];
            line.retain(|literal| !part.contains(literal));
            line.push(new);
        }
        for literal in &part {
            let held = self.holders.get_mut(literal).unwrap();
            held.retain(|place| places.binary_search(place).is_err());
            held.push(self.lines.len() as u32);
        }
        self.holders.insert(new, places.clone());
        places.push(self.lines.len() as u32);
        self.lines.push(part);
        let mut shared = Map::default();
        for place in places {
            self.meet(place, &mut shared);
        }
    }
}

fn main() {
    let mut text = String::new();
    std::io::stdin().read_to_string(&mut text).unwrap();
    let mut state = read(&text);
    for (place, line) in state.lines.iter().enumerate() {
        for literal in line {
            state.holders.entry(*literal).or_default().push(place as u32);
        }
    }
    let mut shared = Map::default();
    for place in 0..state.lines.len() as u32 {
        state.meet(place, &mut shared);
    }
    let (mut taken, mut checksum) = (0, 0u64);
    while let Some(part) = state.best() {
        for (net, set) in &part {
            checksum = (checksum ^ (*net as u64 * 4 + *set as u64)).wrapping_mul(0x100_0000_01b3);
        }
        taken += 1;
        state.take_out(part);
    }
    println!("{taken} {} {checksum:x}", state.lines.iter().map(Vec::len).sum::<usize>());
}
