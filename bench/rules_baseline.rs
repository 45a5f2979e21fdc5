// Plain Rust for comparison with `mv_bench rules divide`; nothing is proved of it. It reads a network of binary tables on standard
// input, keeps for each net its fanins and readers and for all an order (Pearce and Kelly 2006), and lets each table f{i} of a{k} and
// b{k} read g{i} in place of a{k}, where the lines of g{i} put in for it are those of f{i} and no loop comes about.
use std::collections::{HashMap, HashSet};
use std::io::Read;

type Cube = Vec<(u32, u8)>;

#[derive(Default)]
struct Net {
    table: bool,
    lines: Vec<(Cube, u8)>,
    default: Option<u8>,
}

struct Network {
    numbers: HashMap<Vec<u8>, u32>,
    nets: Vec<Net>,
    fanins: Vec<Vec<u32>>,
    readers: Vec<Vec<u32>>,
    places: Vec<u32>,
    literals: u64,
}

fn number(numbers: &mut HashMap<Vec<u8>, u32>, nets: &mut Vec<Net>, word: &[u8]) -> u32 {
    if let Some(number) = numbers.get(word) {
        return *number;
    }
    let number = nets.len() as u32;
    numbers.insert(word.to_vec(), number);
    nets.push(Net::default());
    number
}

fn fanins_of(net: &Net) -> Vec<u32> {
    let mut fanins: Vec<u32> = net.lines.iter().flat_map(|line| line.0.iter().map(|l| l.0)).collect();
    fanins.sort_unstable();
    fanins.dedup();
    fanins
}

fn read(text: &[u8]) -> Network {
    let (mut numbers, mut nets) = (HashMap::new(), Vec::new());
    let mut columns: Vec<u32> = Vec::new();
    for line in text.split(|b| *b == b'\n') {
        let words: Vec<&[u8]> = line.split(|b| *b == b' ').filter(|w| !w.is_empty()).collect();
        match words.first() {
            Some(&b".inputs") | Some(&b".outputs") => {
                for word in &words[1..] {
                    number(&mut numbers, &mut nets, word);
                }
            }
            Some(&b".table") => {
                columns = words[1..].iter().filter(|w| **w != b"->").map(|w| number(&mut numbers, &mut nets, w)).collect();
                nets[*columns.last().unwrap() as usize].table = true;
            }
            Some(&b".default") => nets[*columns.last().unwrap() as usize].default = Some(1 << (words[1][0] - b'0')),
            Some(word) if word[0] != b'.' => {
                let sets = words.iter().zip(&columns).filter(|(w, _)| **w != b"-");
                let mut cube: Cube = sets.map(|(w, n)| (*n, 1u8 << (w[0] - b'0'))).collect();
                let out = cube.pop().unwrap();
                cube.sort_unstable();
                nets[out.0 as usize].lines.push((cube, out.1));
            }
            _ => {}
        }
    }
    let fanins: Vec<Vec<u32>> = nets.iter().map(fanins_of).collect();
    let mut readers = vec![Vec::new(); nets.len()];
    for (reader, row) in fanins.iter().enumerate() {
        for fanin in row {
            readers[*fanin as usize].push(reader as u32);
        }
    }
    let literals = nets.iter().flat_map(|net| net.lines.iter()).map(|line| line.0.len() as u64).sum();
    let mut network = Network { numbers, nets, places: vec![0; fanins.len()], fanins, readers, literals };
    sort(&mut network);
    network
}

/// Gives each net its place in an order in which it stands behind its fanins.
fn sort(network: &mut Network) {
    let mut waiting: Vec<usize> = network.fanins.iter().map(Vec::len).collect();
    let mut ready: Vec<u32> = (0..network.nets.len() as u32).filter(|n| waiting[*n as usize] == 0).collect();
    let mut next = 0;
    while next < ready.len() {
        let net = ready[next];
        network.places[net as usize] = next as u32;
        next += 1;
        for reader in &network.readers[net as usize] {
            waiting[*reader as usize] -= 1;
            if waiting[*reader as usize] == 0 {
                ready.push(*reader);
            }
        }
    }
}

/// The nets that are reached from one by these rows, as long as they stand between two places.
fn reached(rows: &[Vec<u32>], places: &[u32], from: u32, low: u32, high: u32) -> Vec<u32> {
    let mut found = vec![from];
    let mut seen: HashSet<u32> = HashSet::from([from]);
    let mut next = 0;
    while next < found.len() {
        for net in &rows[found[next] as usize] {
            let place = places[*net as usize];
            if low <= place && place <= high && seen.insert(*net) {
                found.push(*net);
            }
        }
        next += 1;
    }
    found
}

/// Puts the reader behind the fanin; false where the fanin is below the reader.
fn put_behind(network: &mut Network, fanin: u32, reader: u32) -> bool {
    let (low, high) = (network.places[reader as usize], network.places[fanin as usize]);
    if high < low {
        return true;
    }
    let mut below = reached(&network.readers, &network.places, reader, low, high);
    if below.contains(&fanin) {
        return false;
    }
    let mut above = reached(&network.fanins, &network.places, fanin, low, high);
    below.sort_unstable_by_key(|n| network.places[*n as usize]);
    above.sort_unstable_by_key(|n| network.places[*n as usize]);
    above.extend(below);
    let mut free: Vec<u32> = above.iter().map(|n| network.places[*n as usize]).collect();
    free.sort_unstable();
    for (net, place) in above.iter().zip(free) {
        network.places[*net as usize] = place;
    }
    true
}

/// The lines that the body stands for, where the net d stands for its own.
fn expanded(body: &[(Cube, u8)], d: u32, inner: &[(Cube, u8)]) -> HashSet<(Cube, u8)> {
    let mut lines = HashSet::new();
    for (cube, out) in body {
        if !cube.contains(&(d, 2)) {
            lines.insert((cube.clone(), *out));
            continue;
        }
        for (part, _) in inner {
            let mut met: Cube = cube.iter().filter(|l| l.0 != d).cloned().collect();
            let mut meets = true;
            for lit in part {
                match met.iter_mut().find(|l| l.0 == lit.0) {
                    Some(own) => {
                        own.1 &= lit.1;
                        meets &= own.1 != 0;
                    }
                    None => met.push(*lit),
                }
            }
            if meets {
                met.sort_unstable();
                lines.insert((met, *out));
            }
        }
    }
    lines
}

/// Lets a table read the net g in place of what g stands for.
fn divide(network: &mut Network, f: u32, g: u32, b: u32) -> bool {
    let mut cube = vec![(g, 2), (b, 2)];
    cube.sort_unstable();
    let body = vec![(cube, 2u8)];
    let (old, inner) = (&network.nets[f as usize], &network.nets[g as usize]);
    let wanted: HashSet<(Cube, u8)> = old.lines.iter().cloned().collect();
    let fits = old.table && old.default == Some(1) && inner.default == Some(1) && inner.lines.iter().all(|l| l.1 == 2);
    if !fits || expanded(&body, g, &inner.lines) != wanted || !put_behind(network, g, f) || !put_behind(network, b, f) {
        return false;
    }
    for fanin in std::mem::take(&mut network.fanins[f as usize]) {
        let row = &mut network.readers[fanin as usize];
        row.remove(row.binary_search(&f).unwrap());
    }
    let net = &mut network.nets[f as usize];
    network.literals -= net.lines.iter().map(|l| l.0.len() as u64).sum::<u64>();
    network.literals += body.iter().map(|l| l.0.len() as u64).sum::<u64>();
    net.lines = body;
    network.fanins[f as usize] = fanins_of(net);
    for fanin in network.fanins[f as usize].clone() {
        let row = &mut network.readers[fanin as usize];
        let place = row.binary_search(&f).unwrap_err();
        row.insert(place, f);
    }
    true
}

fn main() {
    let count: u32 = std::env::args().nth(1).and_then(|word| word.parse().ok()).expect("a number of changes");
    let mut text = Vec::new();
    std::io::stdin().read_to_end(&mut text).expect("standard input");
    let mut network = read(&text);
    let mut applied = 0;
    for i in 0..count {
        let find = |name: String| network.numbers.get(name.as_bytes()).copied();
        let nets = (find(format!("f{i}")), find(format!("g{i}")), find(format!("b{}", i % 500)));
        if let (Some(f), Some(g), Some(b)) = nets {
            applied += divide(&mut network, f, g, b) as u32;
        }
    }
    println!("{applied} applied, {} literals", network.literals);
}
