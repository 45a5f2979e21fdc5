// What `bench/diagrams.sh` holds the diagrams against: the same sets by a plain hash-consed diagram in Rust, whose tables
// grow as they have to. It knows variables of two values alone, no room, no release and no reclaim, and forgets nothing.
use std::collections::HashMap;

const VARIABLES: u32 = 30;
const FIXED: u32 = 12;

/// PCG XSH RR 64/32 on stream 0.
struct Random {
    state: u64,
}

impl Random {
    fn new(seed: u64) -> Random {
        let mut random = Random { state: seed.wrapping_add(1) };
        random.step();
        random
    }

    fn step(&mut self) {
        self.state = self.state.wrapping_mul(6364136223846793005).wrapping_add(1);
    }

    fn next(&mut self) -> u32 {
        let state = self.state;
        self.step();
        ((((state >> 18) ^ state) >> 27) as u32).rotate_right((state >> 59) as u32)
    }
}

#[derive(Clone, Copy, PartialEq, Eq, Hash)]
struct Node {
    var: u32,
    yes: u32,
    no: u32,
}

#[derive(Default)]
struct Diagrams {
    nodes: Vec<Node>,
    numbers: HashMap<Node, u32>,
    results: HashMap<(bool, u32, u32), u32>,
}

impl Diagrams {
    fn make(&mut self, var: u32, yes: u32, no: u32) -> u32 {
        if yes == no {
            return no;
        }
        let node = Node { var, yes, no };
        let nodes = &mut self.nodes;
        *self.numbers.entry(node).or_insert_with(|| {
            nodes.push(node);
            nodes.len() as u32 + 1
        })
    }

    fn var(&self, d: u32) -> u32 {
        if d < 2 { u32::MAX } else { self.nodes[d as usize - 2].var }
    }

    fn split(&self, d: u32, var: u32) -> (u32, u32) {
        if self.var(d) == var {
            let node = self.nodes[d as usize - 2];
            (node.yes, node.no)
        } else {
            (d, d)
        }
    }

    fn apply(&mut self, and: bool, a: u32, b: u32) -> u32 {
        let deciding = if and { 0 } else { 1 };
        if a == deciding || b == deciding {
            return deciding;
        }
        if a == b || b == 1 - deciding {
            return a;
        }
        if a == 1 - deciding {
            return b;
        }
        if let Some(&d) = self.results.get(&(and, a, b)) {
            return d;
        }
        let var = self.var(a).min(self.var(b));
        let (a_yes, a_no) = self.split(a, var);
        let (b_yes, b_no) = self.split(b, var);
        let yes = self.apply(and, a_yes, b_yes);
        let no = self.apply(and, a_no, b_no);
        let d = self.make(var, yes, no);
        self.results.insert((and, a, b), d);
        d
    }
}

fn drawn(diagrams: &mut Diagrams, random: &mut Random, size: u32) -> u32 {
    let mut set = 0;
    for _ in 0..size {
        let mut cube = 1;
        for _ in 0..FIXED {
            let var = random.next() % VARIABLES;
            // The test is for value 0, as the last value is never tested.
            let zero = random.next() % 2 == 0;
            let literal = diagrams.make(var, zero as u32, !zero as u32);
            cube = diagrams.apply(true, cube, literal);
        }
        set = diagrams.apply(false, set, cube);
    }
    set
}

fn main() {
    let words: Vec<u64> = std::env::args().skip(1).map(|w| w.parse().unwrap()).collect();
    let mut random = Random::new(words[1]);
    let mut diagrams = Diagrams::default();
    let left = drawn(&mut diagrams, &mut random, words[0] as u32);
    let right = drawn(&mut diagrams, &mut random, words[0] as u32);
    diagrams.apply(true, left, right);
    println!("meet {} {} {} nodes", words[0], words[1], diagrams.nodes.len());
}
