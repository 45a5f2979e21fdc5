// Plain Rust for comparison with `mvopt opt NET SCRIPT`; nothing is proved of it. Scripts have the commands sweep, eliminate and
// collapse NET; a network file has models with instances, the first of which is the root, and their tables one output, values, sets of
// values, `-` and rows with `=x`. It ends with
// 2 or 3 where it can't read the network or the script, and checks less of a file than the format asks. What is known of a net and
// its readers is kept until a change touches one of their tables.
use std::collections::HashMap;
use std::collections::HashSet;
use std::hash::{BuildHasherDefault, Hasher};
use std::io::{Read, Write};

type Set = u128;
const WIDEST: usize = 4096;
const MOST_FANINS: usize = 255;

#[derive(Default, Clone, Copy)]
struct Fx(u64);
impl Hasher for Fx {
    fn finish(&self) -> u64 {
        self.0
    }
    fn write(&mut self, b: &[u8]) {
        for c in b.chunks(8) {
            let mut w = [0u8; 8];
            w[..c.len()].copy_from_slice(c);
            self.write_u64(u64::from_le_bytes(w));
        }
    }
    fn write_u64(&mut self, x: u64) {
        let m = ((self.0 ^ x) as u128).wrapping_mul(0x9e37_79b9_7f4a_7c15_f39c_c060_5ced_c835);
        self.0 = (m as u64) ^ ((m >> 64) as u64);
    }
    fn write_usize(&mut self, x: usize) {
        self.write_u64(x as u64)
    }
    fn write_u32(&mut self, x: u32) {
        self.write_u64(x as u64)
    }
    fn write_u8(&mut self, x: u8) {
        self.write_u64(x as u64)
    }
    fn write_u128(&mut self, x: u128) {
        self.write_u64(x as u64);
        self.write_u64((x >> 64) as u64);
    }
}
type FxMap<K, V> = HashMap<K, V, BuildHasherDefault<Fx>>;
type FxSet<K> = HashSet<K, BuildHasherDefault<Fx>>;

fn full(count: u32) -> Set {
    if count >= 128 { !0 } else { (1u128 << count) - 1 }
}

// ---------------------------------------------------------------- cubes and covers

#[derive(Clone, Copy, PartialEq, Eq)]
#[repr(C, packed(4))]
struct Lit {
    net: u32,
    set: Set,
}

#[derive(Clone, Default)]
struct Cubes {
    lits: Vec<Lit>,
    ends: Vec<u32>,
}

impl Cubes {
    fn len(&self) -> usize {
        self.ends.len()
    }
    fn start(&self, i: usize) -> usize {
        if i == 0 { 0 } else { self.ends[i - 1] as usize }
    }
    fn get(&self, i: usize) -> &[Lit] {
        &self.lits[self.start(i)..self.ends[i] as usize]
    }
    fn close(&mut self) {
        self.ends.push(self.lits.len() as u32);
    }
    fn clear(&mut self) {
        self.lits.clear();
        self.ends.clear();
    }
}

/// Lines with their outputs; a default of 0 is none.
#[derive(Clone, Default)]
struct Cover {
    cubes: Cubes,
    outs: Vec<Set>,
    default: Set,
}

fn place(cube: &[Lit], net: u32) -> Option<usize> {
    if cube.len() <= 8 {
        cube.iter().position(|l| l.net == net)
    } else {
        cube.binary_search_by(|l| { let k = l.net; k.cmp(&net) }).ok()
    }
}

fn meets(a: &[Lit], b: &[Lit]) -> bool {
    let (mut i, mut j) = (0, 0);
    while i < a.len() && j < b.len() {
        let (x, y) = (a[i], b[j]);
        if x.net < y.net {
            i += 1;
        } else if x.net > y.net {
            j += 1;
        } else {
            if x.set & y.set == 0 {
                return false;
            }
            i += 1;
            j += 1;
        }
    }
    true
}

/// Appends the meet of a (without its literal at `skip`) and b as a cube, if they meet.
fn push_meet(to: &mut Cubes, a: &[Lit], skip: usize, b: &[Lit]) -> bool {
    let before = to.lits.len();
    let (mut i, mut j) = (0, 0);
    loop {
        if i == skip {
            i += 1;
        }
        if i >= a.len() {
            to.lits.extend_from_slice(&b[j..]);
            break;
        }
        if j >= b.len() {
            while i < a.len() {
                if i != skip {
                    to.lits.push(a[i]);
                }
                i += 1;
            }
            break;
        }
        let (x, y) = (a[i], b[j]);
        if x.net < y.net {
            to.lits.push(x);
            i += 1;
        } else if x.net > y.net {
            to.lits.push(y);
            j += 1;
        } else {
            let set = x.set & y.set;
            if set == 0 {
                to.lits.truncate(before);
                return false;
            }
            to.lits.push(Lit { net: x.net, set });
            i += 1;
            j += 1;
        }
    }
    to.close();
    true
}

/// Appends the disjoint sharp of c by d.
fn push_sharp(to: &mut Cubes, c: &[Lit], d: &[Lit], counts: &[u32]) {
    if !meets(c, d) {
        to.lits.extend_from_slice(c);
        to.close();
        return;
    }
    for k in 0..d.len() {
        let net = d[k].net;
        let at = match place(c, net) {
            Some(p) => c[p].set,
            None => full(counts[net as usize]),
        };
        let rest = at & !d[k].set;
        if rest == 0 {
            continue;
        }
        // c with `rest` at this net and the meets at the nets of d before it
        let (mut i, mut j) = (0, 0);
        while i < c.len() || j <= k {
            let x = if i < c.len() { c[i].net } else { u32::MAX };
            let y = if j <= k { d[j].net } else { u32::MAX };
            if x < y {
                to.lits.push(c[i]);
                i += 1;
            } else {
                let set = if j == k {
                    rest
                } else if x == y {
                    c[i].set & d[j].set
                } else {
                    d[j].set
                };
                to.lits.push(Lit { net: y, set });
                if x == y {
                    i += 1;
                }
                j += 1;
            }
        }
        to.close();
    }
}

/// The complement of the lines' cubes; None where it is Wide.
fn complement(lines: &Cubes, counts: &[u32]) -> Option<Cubes> {
    let mut now = Cubes::default();
    now.close();
    let mut next = Cubes::default();
    for i in 0..lines.len() {
        let d = lines.get(i);
        next.clear();
        for k in 0..now.len() {
            push_sharp(&mut next, now.get(k), d, counts);
            if next.len() > WIDEST {
                return None;
            }
        }
        std::mem::swap(&mut now, &mut next);
        if now.len() == 0 {
            break;
        }
    }
    Some(now)
}

/// True exactly where the cubes match every point.
fn covers_all(cubes: &Cubes, counts: &[u32]) -> bool {
    if cubes.len() == 0 {
        return false;
    }
    let mut volume = 0f64;
    let mut uses: FxMap<u32, u32> = FxMap::default();
    for i in 0..cubes.len() {
        let c = cubes.get(i);
        if c.is_empty() {
            return true;
        }
        let mut v = 1f64;
        for l in c {
            let net = l.net;
            v *= (l.set.count_ones() as f64) / (counts[net as usize] as f64);
            *uses.entry(net).or_insert(0) += 1;
        }
        volume += v;
    }
    if volume < 0.999_999 {
        return false;
    }
    let (&net, _) = uses.iter().max_by_key(|&(&n, &u)| (u, std::cmp::Reverse(n))).unwrap();
    let at: Vec<(usize, usize, Set)> =
        (0..cubes.len()).filter_map(|i| place(cubes.get(i), net).map(|p| (i, p, cubes.get(i)[p].set))).collect();
    let count = counts[net as usize];
    // a value whose lines are among those of another value is the harder one
    let members = |v: u32| at.iter().map(move |x| x.2 >> v & 1 == 1);
    let within = |u: u32, v: u32| members(u).zip(members(v)).all(|(a, b)| !a || b);
    for v in 0..count {
        let easier = (0..count).any(|u| u != v && within(u, v) && (u < v || !within(v, u)));
        if easier {
            continue;
        }
        let mut part = Cubes::default();
        let mut k = 0;
        for i in 0..cubes.len() {
            let c = cubes.get(i);
            if k < at.len() && at[k].0 == i {
                if at[k].2 >> v & 1 == 1 {
                    let p = at[k].1;
                    part.lits.extend_from_slice(&c[..p]);
                    part.lits.extend_from_slice(&c[p + 1..]);
                    part.close();
                }
                k += 1;
            } else {
                part.lits.extend_from_slice(c);
                part.close();
            }
        }
        if !covers_all(&part, counts) {
            return false;
        }
    }
    true
}

fn plainly_deterministic(c: &Cover) -> bool {
    if c.default != 0 && c.default.count_ones() != 1 {
        return false;
    }
    if c.outs.iter().any(|o| o.count_ones() != 1) {
        return false;
    }
    for i in 0..c.outs.len() {
        for j in i + 1..c.outs.len() {
            if c.outs[i] != c.outs[j] && meets(c.cubes.get(i), c.cubes.get(j)) {
                return false;
            }
        }
    }
    true
}

/// Room for the bits of lines, kept between calls.
#[derive(Default)]
struct Scratch {
    stamp: Vec<u32>,
    now: u32,
    slot: Vec<u32>,
    bits: Vec<u64>,
    gone: Vec<bool>,
}

impl Scratch {
    fn new(nets: usize) -> Scratch {
        Scratch { stamp: vec![0; nets], now: 0, slot: vec![0; nets], bits: vec![], gone: vec![] }
    }
    fn fresh(&mut self) {
        self.now += 1;
    }
    fn see(&mut self, net: u32) -> bool {
        let s = &mut self.stamp[net as usize];
        let new = *s != self.now;
        *s = self.now;
        new
    }
}

/// Marks in `gone` each line that an earlier equal one or a greater one takes away. Line i's bits are what it leaves out.
/// `new` holds the lines that aren't known to be apart from all others: no two of the rest take each other away.
fn mark_gone(lines: usize, words: usize, bits: &[u64], new: Option<&[u32]>, gone: &mut Vec<bool>) -> bool {
    gone.clear();
    gone.resize(lines, false);
    let row = |i: usize| &bits[i * words..(i + 1) * words];
    let mut any = false;
    if let Some(new) = new.filter(|n| n.len() <= 48) {
        for &i in new {
            let i = i as usize;
            let a = row(i);
            for j in 0..lines {
                if j == i || gone[j] {
                    continue;
                }
                let b = row(j);
                let (mut up, mut down) = (true, true);
                for k in 0..words {
                    up &= b[k] & !a[k] == 0;
                    down &= a[k] & !b[k] == 0;
                    if !up && !down {
                        break;
                    }
                }
                if up && (!down || j < i) {
                    gone[i] = true;
                    any = true;
                    break;
                }
                if down {
                    gone[j] = true;
                    any = true;
                }
            }
        }
        return any;
    }
    if lines <= 40 {
        for i in 0..lines {
            let a = row(i);
            for j in 0..lines {
                if j == i {
                    continue;
                }
                let b = row(j);
                if (0..words).all(|k| b[k] & !a[k] == 0) && (j < i || a != b) {
                    gone[i] = true;
                    any = true;
                    break;
                }
            }
        }
        return any;
    }
    // equal lines first: of two others the greater has fewer bits
    let mut had: FxSet<&[u64]> = FxSet::default();
    for i in 0..lines {
        if !had.insert(row(i)) {
            gone[i] = true;
            any = true;
        }
    }
    let weight: Vec<u32> = (0..lines).map(|i| row(i).iter().map(|w| w.count_ones()).sum()).collect();
    // each line stands under the rarest of its bits
    let mut often = vec![0u32; words * 64];
    for i in 0..lines {
        for (k, &w) in row(i).iter().enumerate() {
            let mut w = w;
            while w != 0 {
                often[k * 64 + w.trailing_zeros() as usize] += 1;
                w &= w - 1;
            }
        }
    }
    let mut home = vec![u32::MAX; lines];
    let mut size = vec![0u32; words * 64 + 1];
    let mut bare: Option<usize> = None;
    for i in 0..lines {
        let mut best = u32::MAX;
        for (k, &w) in row(i).iter().enumerate() {
            let mut w = w;
            while w != 0 {
                let b = (k * 64 + w.trailing_zeros() as usize) as u32;
                if best == u32::MAX || often[b as usize] < often[best as usize] {
                    best = b;
                }
                w &= w - 1;
            }
        }
        home[i] = best;
        if best == u32::MAX {
            bare.get_or_insert(i);
        } else if !gone[i] {
            size[best as usize + 1] += 1;
        }
    }
    if let Some(first) = bare {
        for i in 0..lines {
            gone[i] = i != first;
        }
        return lines > 1;
    }
    for b in 0..words * 64 {
        size[b + 1] += size[b];
    }
    let mut fill = size.clone();
    let mut under = vec![0u32; lines];
    let mut by_weight: Vec<u32> = (0..lines as u32).filter(|&i| !gone[i as usize]).collect();
    by_weight.sort_by_key(|&i| weight[i as usize]);
    for i in by_weight {
        let h = home[i as usize] as usize;
        under[fill[h] as usize] = i;
        fill[h] += 1;
    }
    for i in 0..lines {
        if gone[i] {
            continue;
        }
        let a = row(i);
        'look: for k in 0..words {
            let mut w = a[k];
            while w != 0 {
                let bit = k * 64 + w.trailing_zeros() as usize;
                w &= w - 1;
                for &j in &under[size[bit] as usize..size[bit + 1] as usize] {
                    let j = j as usize;
                    if weight[j] >= weight[i] {
                        break;
                    }
                    let b = row(j);
                    if (0..words).all(|k| b[k] & !a[k] == 0) {
                        gone[i] = true;
                        any = true;
                        break 'look;
                    }
                }
            }
        }
    }
    any
}

/// Takes away equal and lesser lines. Leaves the default as it is.
fn absorb_lines(c: &mut Cover, counts: &[u32], values: u32, new: Option<&[u32]>, s: &mut Scratch) {
    let lines = c.outs.len();
    if lines < 2 || new.is_some_and(|n| n.is_empty()) {
        return;
    }
    s.fresh();
    let mut width = 0u32;
    for l in &c.cubes.lits {
        let net = l.net;
        if s.see(net) {
            s.slot[net as usize] = width;
            width += counts[net as usize];
        }
    }
    let out_at = width;
    let same_out = c.outs.iter().all(|&o| o == c.outs[0]);
    if !same_out {
        width += values;
    }
    let words = ((width as usize) + 63) / 64;
    let words = words.max(1);
    let mut bits = std::mem::take(&mut s.bits);
    bits.clear();
    bits.resize(lines * words, 0);
    let put = |row: &mut [u64], at: u32, set: Set| {
        let (k, off) = ((at / 64) as usize, at % 64);
        if (set >> 64) as u64 == 0 && off <= 32 && set as u64 >> 32 == 0 {
            row[k] |= (set as u64) << off;
            return;
        }
        let low = set << off;
        row[k] |= low as u64;
        let mid = (low >> 64) as u64;
        if mid != 0 {
            row[k + 1] |= mid;
        }
        if off != 0 {
            let top = (set >> (128 - off)) as u64;
            if top != 0 {
                row[k + 2] |= top;
            }
        }
    };
    for i in 0..lines {
        let row = &mut bits[i * words..(i + 1) * words];
        for l in c.cubes.get(i) {
            let net = l.net;
            put(row, s.slot[net as usize], full(counts[net as usize]) & !l.set);
        }
        if !same_out {
            put(row, out_at, full(values) & !c.outs[i]);
        }
    }
    if mark_gone(lines, words, &bits, new, &mut s.gone) {
        let mut to = 0;
        let mut end = 0;
        let mut start = 0;
        for i in 0..lines {
            let stop = c.cubes.ends[i] as usize;
            if !s.gone[i] {
                c.cubes.lits.copy_within(start..stop, end);
                end += stop - start;
                c.cubes.ends[to] = end as u32;
                c.outs[to] = c.outs[i];
                to += 1;
            }
            start = stop;
        }
        c.cubes.lits.truncate(end);
        c.cubes.ends.truncate(to);
        c.outs.truncate(to);
    }
    s.bits = bits;
}

fn absorb(c: &mut Cover, counts: &[u32], values: u32, new: Option<&[u32]>, s: &mut Scratch) {
    absorb_lines(c, counts, values, new, s);
    if c.default != 0 && (0..c.cubes.len()).any(|i| c.cubes.get(i).is_empty()) {
        c.default = 0;
    }
}

// ---------------------------------------------------------------- the least net still to be looked at

#[derive(Default)]
struct MinSet {
    levels: Vec<Vec<u64>>,
}

impl MinSet {
    fn new(n: usize) -> MinSet {
        let mut levels = vec![];
        let mut k = n.max(1);
        loop {
            k = (k + 63) / 64;
            levels.push(vec![0u64; k]);
            if k == 1 {
                break;
            }
        }
        MinSet { levels }
    }
    fn insert(&mut self, x: u32) {
        let mut x = x as usize;
        for l in &mut self.levels {
            let old = l[x / 64];
            l[x / 64] = old | 1 << (x % 64);
            if old != 0 {
                return;
            }
            x /= 64;
        }
    }
    fn pop(&mut self) -> Option<u32> {
        let top = self.levels.len() - 1;
        if self.levels[top][0] == 0 {
            return None;
        }
        let mut x = 0usize;
        for l in self.levels.iter().rev() {
            x = x * 64 + l[x].trailing_zeros() as usize;
        }
        let mut y = x;
        for l in &mut self.levels {
            l[y / 64] &= !(1 << (y % 64));
            if l[y / 64] != 0 {
                break;
            }
            y /= 64;
        }
        Some(x as u32)
    }
}

// ---------------------------------------------------------------- the network

const UNKNOWN: i64 = i64::MAX;
const WIDE: i64 = i64::MAX - 1;

#[derive(Clone, Copy)]
struct Reader {
    net: u32,
    gain: i64,
}

#[derive(Clone, Copy)]
struct Fanin {
    net: u32,
    pos: u32,
}

#[derive(Default)]
enum Compl {
    #[default]
    Unknown,
    Wide,
    Is(Cubes),
}

#[derive(Clone, Copy, Default, PartialEq, Eq)]
enum Told {
    #[default]
    Unknown,
    No,
    Yes,
}

#[derive(Default)]
struct Net {
    name: Vec<u8>,
    names: Option<Vec<Vec<u8>>>,
    seen: bool,
    held: bool,
    driven: bool,
    cover: Cover,
    fanins: Vec<Fanin>,
    readers: Vec<Reader>,
    /// sum of the known gains, number of Wide readers, readers whose gain is to be found
    sum: i64,
    wide: u32,
    dirty: Vec<u32>,
    all_dirty: bool,
    det: Told,
    total: Told,
    compl: Compl,
    /// no line takes another away: so once the table was made by a rule
    absorbed: bool,
}

struct Network {
    root: Vec<u8>,
    inputs: Vec<u32>,
    outputs: Vec<u32>,
    latches: Vec<(u32, u32)>,
    nets: Vec<Net>,
    counts: Vec<u32>,
    literals: u64,
    heap: MinSet,
    scratch: Scratch,
    fresh_at: Vec<u32>,
    by_name: FxMap<Vec<u8>, u32>,
}

enum Answer {
    Wide,
    Gain(i64),
}

impl Network {
    fn is_total(&mut self, n: usize) -> bool {
        if self.nets[n].cover.default != 0 {
            return true;
        }
        if self.nets[n].total == Told::Unknown {
            let yes = covers_all(&self.nets[n].cover.cubes, &self.counts);
            self.nets[n].total = if yes { Told::Yes } else { Told::No };
        }
        self.nets[n].total == Told::Yes
    }

    fn is_det(&mut self, n: usize) -> bool {
        if self.nets[n].det == Told::Unknown {
            let yes = plainly_deterministic(&self.nets[n].cover);
            self.nets[n].det = if yes { Told::Yes } else { Told::No };
        }
        self.nets[n].det == Told::Yes
    }

    fn find_complement(&mut self, n: usize) -> bool {
        if let Compl::Unknown = self.nets[n].compl {
            self.nets[n].compl = match complement(&self.nets[n].cover.cubes, &self.counts) {
                None => Compl::Wide,
                Some(c) => Compl::Is(c),
            };
        }
        matches!(self.nets[n].compl, Compl::Is(_))
    }

    /// The composite of reader t for net n; None where it is Wide.
    fn composite(&mut self, n: usize, t: usize) -> Option<Cover> {
        let net = n as u32;
        let (n_default, t_default) = (self.nets[n].cover.default, self.nets[t].cover.default);
        let spell = t_default != 0 && !(self.is_total(n) && self.is_det(n));
        if spell && !self.find_complement(t) {
            return None;
        }
        let tables = &self.nets;
        let spelled: &Cubes = match &tables[t].compl {
            Compl::Is(c) if spell => c,
            _ => &Cubes { lits: vec![], ends: vec![] },
        };
        let (mut any_free, mut meets_default) = (false, false);
        for cubes in [&tables[t].cover.cubes, spelled] {
            for i in 0..cubes.len() {
                let c = cubes.get(i);
                match place(c, net) {
                    None => any_free = true,
                    Some(p) => meets_default |= c[p].set & n_default != 0,
                }
            }
        }
        let n_total = if any_free { self.is_total(n) } else { true };
        if meets_default && !self.find_complement(n) {
            return None;
        }
        let tables = &self.nets;
        let (a, b) = (&tables[n].cover, &tables[t].cover);
        let nothing = Cubes::default();
        let spelled: &Cubes = match &tables[t].compl {
            Compl::Is(c) if spell => c,
            _ => &nothing,
        };
        let others: &Cubes = match &tables[n].compl {
            Compl::Is(c) if meets_default => c,
            _ => &nothing,
        };
        let values = self.counts[t];
        let absorbed = tables[t].absorbed;
        let mut new = Cover::default();
        let mut limit = 1 << 15;
        // the lines that aren't t's own as they were; none is listed once the list was cut
        let mut fresh: Vec<u32> = vec![];
        let mut listed = absorbed;
        let first = b.cubes.len();
        for i in 0..first + spelled.len() {
            let (line, out) = if i < first { (b.cubes.get(i), b.outs[i]) } else { (spelled.get(i - first), t_default) };
            let from = new.outs.len();
            match place(line, net) {
                Some(p) => {
                    let set = line[p].set;
                    for k in 0..a.outs.len() {
                        if a.outs[k] & set != 0 && push_meet(&mut new.cubes, line, p, a.cubes.get(k)) {
                            new.outs.push(out);
                        }
                    }
                    if set & n_default != 0 {
                        for k in 0..others.len() {
                            if push_meet(&mut new.cubes, line, p, others.get(k)) {
                                new.outs.push(out);
                            }
                        }
                    }
                }
                None if n_total => {
                    new.cubes.lits.extend_from_slice(line);
                    new.cubes.close();
                    new.outs.push(out);
                    if i < first {
                        continue;
                    }
                }
                None => {
                    for k in 0..a.outs.len() {
                        if push_meet(&mut new.cubes, line, usize::MAX, a.cubes.get(k)) {
                            new.outs.push(out);
                        }
                    }
                }
            }
            fresh.extend(from as u32..new.outs.len() as u32);
            if new.outs.len() > limit {
                absorb_lines(&mut new, &self.counts, values, None, &mut self.scratch);
                limit = (2 * new.outs.len()).max(1 << 15);
                listed = false;
            }
        }
        if !spell {
            new.default = t_default;
        }
        absorb(&mut new, &self.counts, values, listed.then_some(&fresh), &mut self.scratch);
        if new.outs.len() > WIDEST {
            return None;
        }
        if self.nets[n].fanins.len() + self.nets[t].fanins.len() > MOST_FANINS && self.fanins_of(&new.cubes).len() > MOST_FANINS {
            return None;
        }
        Some(new)
    }

    fn fanins_of(&mut self, cubes: &Cubes) -> Vec<u32> {
        self.scratch.fresh();
        let mut list = vec![];
        for l in &cubes.lits {
            let net = l.net;
            if self.scratch.see(net) {
                list.push(net);
            }
        }
        list.sort_unstable();
        list
    }

    /// What is known of the pair (fanin m, reader r) is forgotten.
    fn forget(&mut self, m: usize, pos: usize, r: u32) {
        let net = &mut self.nets[m];
        if net.all_dirty {
            return;
        }
        let gain = net.readers[pos].gain;
        if gain != UNKNOWN {
            if gain == WIDE {
                net.wide -= 1;
            } else {
                net.sum -= gain;
            }
            net.readers[pos].gain = UNKNOWN;
            net.dirty.push(r);
        }
    }

    fn leave(&mut self, m: usize, pos: usize) {
        let net = &mut self.nets[m];
        let gain = net.readers[pos].gain;
        if !net.all_dirty && gain != UNKNOWN {
            if gain == WIDE {
                net.wide -= 1;
            } else {
                net.sum -= gain;
            }
        }
        net.readers.swap_remove(pos);
        if pos < net.readers.len() {
            let moved = net.readers[pos].net as usize;
            let list = &mut self.nets[moved].fanins;
            let k = list.binary_search_by(|f| f.net.cmp(&(m as u32))).unwrap();
            list[k].pos = pos as u32;
        }
    }

    fn enter(&mut self, m: usize, r: u32) -> u32 {
        let net = &mut self.nets[m];
        net.readers.push(Reader { net: r, gain: UNKNOWN });
        if !net.all_dirty {
            net.dirty.push(r);
        }
        net.readers.len() as u32 - 1
    }

    /// Gives t a new table. t, its old and its new fanins are to be looked at again.
    fn set_table(&mut self, t: usize, cover: Cover, det: Told, total: Told) {
        let list = self.fanins_of(&cover.cubes);
        let old = std::mem::take(&mut self.nets[t].fanins);
        // `leave` may move positions of t's own fanins, so they stand in the table until each is dealt with
        let old_nets: Vec<u32> = old.iter().map(|f| f.net).collect();
        self.nets[t].fanins = old;
        let mut new = Vec::with_capacity(list.len());
        let mut k = 0;
        for (i, &m) in old_nets.iter().enumerate() {
            while k < list.len() && list[k] < m {
                k += 1;
            }
            self.heap.insert(m);
            let pos = self.nets[t].fanins[i].pos as usize;
            if k < list.len() && list[k] == m {
                self.forget(m as usize, pos, t as u32);
            } else {
                self.leave(m as usize, pos);
            }
        }
        let mut i = 0;
        for &m in &list {
            while i < old_nets.len() && old_nets[i] < m {
                i += 1;
            }
            if i < old_nets.len() && old_nets[i] == m {
                new.push(self.nets[t].fanins[i]);
            } else {
                self.heap.insert(m);
                let pos = self.enter(m as usize, t as u32);
                new.push(Fanin { net: m, pos });
            }
        }
        self.heap.insert(t as u32);
        let net = &mut self.nets[t];
        self.literals -= net.cover.cubes.lits.len() as u64;
        self.literals += cover.cubes.lits.len() as u64;
        net.fanins = new;
        net.cover = cover;
        net.cover.cubes.lits.shrink_to_fit();
        net.det = det;
        net.total = total;
        net.compl = Compl::Unknown;
        net.absorbed = true;
        net.all_dirty = true;
        net.dirty.clear();
    }

    fn take_away(&mut self, n: usize) {
        for i in 0..self.nets[n].fanins.len() {
            let f = self.nets[n].fanins[i];
            self.heap.insert(f.net);
            self.leave(f.net as usize, f.pos as usize);
        }
        let net = &mut self.nets[n];
        self.literals -= net.cover.cubes.lits.len() as u64;
        net.fanins = vec![];
        net.cover = Cover::default();
        net.compl = Compl::Unknown;
        net.held = false;
        net.driven = false;
    }

    /// The literals that collapsing n adds to its readers, or Wide. New composites are kept.
    fn look(&mut self, n: usize, kept: &mut Vec<(u32, Cover)>) -> Answer {
        let net = &mut self.nets[n];
        if net.all_dirty {
            net.all_dirty = false;
            net.sum = 0;
            net.wide = 0;
            net.dirty.clear();
            for r in net.readers.iter_mut() {
                r.gain = UNKNOWN;
                net.dirty.push(r.net);
            }
        }
        while self.nets[n].wide == 0 {
            let Some(r) = self.nets[n].dirty.pop() else {
                return Answer::Gain(self.nets[n].sum);
            };
            let Ok(k) = self.nets[r as usize].fanins.binary_search_by(|f| f.net.cmp(&(n as u32))) else {
                continue;
            };
            let pos = self.nets[r as usize].fanins[k].pos as usize;
            if self.nets[n].readers[pos].gain != UNKNOWN {
                continue;
            }
            let old = self.nets[r as usize].cover.cubes.lits.len() as i64;
            let gain = match self.composite(n, r as usize) {
                None => WIDE,
                Some(c) => {
                    let new = c.cubes.lits.len() as i64;
                    kept.push((r, c));
                    new - old
                }
            };
            let net = &mut self.nets[n];
            net.readers[pos].gain = gain;
            if gain == WIDE {
                net.wide += 1;
            } else {
                net.sum += gain;
            }
        }
        Answer::Wide
    }

    /// Rule 5, once `look` has said that no composite is Wide.
    fn collapse(&mut self, n: usize, kept: &mut Vec<(u32, Cover)>) {
        for (i, k) in kept.iter().enumerate() {
            self.fresh_at[k.0 as usize] = i as u32 + 1;
        }
        let readers: Vec<u32> = self.nets[n].readers.iter().map(|r| r.net).collect();
        let mut made = Vec::with_capacity(readers.len());
        for &r in &readers {
            let at = self.fresh_at[r as usize];
            let cover = if at > 0 {
                self.fresh_at[r as usize] = 0;
                std::mem::take(&mut kept[at as usize - 1].1)
            } else {
                self.composite(n, r as usize).expect("not Wide")
            };
            made.push(cover);
        }
        let join = |a: Told, b: Told| if a == Told::Yes && b == Told::Yes { Told::Yes } else { Told::Unknown };
        let full = |net: &Net| if net.cover.default != 0 { Told::Yes } else { net.total };
        for (&r, cover) in readers.iter().zip(made) {
            // composites of plainly deterministic (total) tables are so
            let det = join(self.nets[n].det, self.nets[r as usize].det);
            let total = join(full(&self.nets[n]), full(&self.nets[r as usize]));
            self.set_table(r as usize, cover, det, total);
        }
        self.take_away(n);
        kept.clear();
    }

    /// The fanin of a plain buffer.
    fn buffered(&self, n: usize) -> Option<u32> {
        let net = &self.nets[n];
        let count = self.counts[n];
        if net.cover.default != 0 || net.fanins.len() != 1 || count < 2 || net.cover.outs.len() != count as usize {
            return None;
        }
        let m = net.fanins[0].net;
        if self.counts[m as usize] != count {
            return None;
        }
        let mut had: Set = 0;
        for (i, &out) in net.cover.outs.iter().enumerate() {
            let c = net.cover.cubes.get(i);
            if c.len() != 1 || c[0].set != out || out.count_ones() != 1 || had & out != 0 {
                return None;
            }
            had |= out;
        }
        Some(m)
    }

    fn is_constant(&self, n: usize) -> bool {
        let c = &self.nets[n].cover;
        match c.outs.len() {
            0 => c.default.count_ones() == 1,
            1 => c.cubes.lits.is_empty() && c.outs[0].count_ones() == 1,
            _ => false,
        }
    }

    fn wire(&mut self, n: usize, m: u32) {
        let net = n as u32;
        let readers: Vec<u32> = self.nets[n].readers.iter().map(|r| r.net).collect();
        for r in readers {
            let old = &self.nets[r as usize].cover;
            let mut new = Cover { default: old.default, ..Cover::default() };
            for i in 0..old.outs.len() {
                let c = old.cubes.get(i);
                let on = match place(c, net) {
                    Some(p) => push_meet(&mut new.cubes, c, p, &[Lit { net: m, set: c[p].set }]),
                    None => {
                        new.cubes.lits.extend_from_slice(c);
                        new.cubes.close();
                        true
                    }
                };
                if on {
                    new.outs.push(old.outs[i]);
                }
            }
            absorb(&mut new, &self.counts, self.counts[r as usize], None, &mut self.scratch);
            self.set_table(r as usize, new, Told::Unknown, Told::Unknown);
        }
        self.heap.insert(net);
    }

    // ------------------------------------------------------------ commands

    fn fill_heap(&mut self) {
        for n in 0..self.nets.len() {
            if self.nets[n].driven && !self.nets[n].seen {
                self.heap.insert(n as u32);
            }
        }
    }

    fn tell(&self, notes: &mut Vec<u8>, what: &str, n: usize) {
        notes.extend_from_slice(what.as_bytes());
        notes.push(b' ');
        notes.extend_from_slice(&self.nets[n].name);
        notes.push(b'\n');
    }

    fn sweep(&mut self, notes: &mut Vec<u8>) {
        self.fill_heap();
        let mut kept = vec![];
        while let Some(n) = self.heap.pop() {
            let n = n as usize;
            let net = &self.nets[n];
            if !net.driven || net.seen {
                continue;
            }
            if net.readers.is_empty() {
                if self.is_total(n) {
                    self.tell(notes, "remove", n);
                    self.take_away(n);
                }
            } else if let Some(m) = self.buffered(n) {
                self.tell(notes, "wire", n);
                self.wire(n, m);
            } else if self.is_constant(n) {
                kept.clear();
                if let Answer::Gain(_) = self.look(n, &mut kept) {
                    self.tell(notes, "collapse", n);
                    self.collapse(n, &mut kept);
                }
            }
        }
    }

    /// Unseen, read and not Shared: rule 5 refuses it as Wide at most.
    fn may_collapse(&mut self, n: usize) -> bool {
        let net = &self.nets[n];
        net.driven && !net.seen && !net.readers.is_empty() && (net.readers.len() == 1 || self.is_det(n))
    }

    fn eliminate(&mut self, notes: &mut Vec<u8>) {
        self.fill_heap();
        let mut kept = vec![];
        while let Some(n) = self.heap.pop() {
            let n = n as usize;
            if !self.may_collapse(n) {
                continue;
            }
            kept.clear();
            if let Answer::Gain(g) = self.look(n, &mut kept) {
                if g <= self.nets[n].cover.cubes.lits.len() as i64 {
                    self.tell(notes, "collapse", n);
                    self.collapse(n, &mut kept);
                }
            }
        }
        kept.clear();
        for n in 0..self.nets.len() {
            if self.may_collapse(n) {
                if let Answer::Wide = self.look(n, &mut kept) {
                    self.tell(notes, "# note lines", n);
                }
            }
        }
    }

    fn collapse_named(&mut self, name: &[u8], notes: &mut Vec<u8>) {
        let n = self.by_name.get(name).map(|&n| n as usize).filter(|&n| self.nets[n].driven);
        let Some(n) = n else {
            notes.extend_from_slice(b"# note absent ");
            notes.extend_from_slice(name);
            notes.push(b'\n');
            return;
        };
        if self.nets[n].seen {
            return self.tell(notes, "# note seen", n);
        }
        if self.nets[n].readers.is_empty() {
            return self.tell(notes, "# note unread", n);
        }
        if self.nets[n].readers.len() > 1 && !self.is_det(n) {
            return self.tell(notes, "# note shared", n);
        }
        let mut kept = vec![];
        match self.look(n, &mut kept) {
            Answer::Wide => self.tell(notes, "# note lines", n),
            Answer::Gain(g) => {
                let after = self.literals as i64 + g - self.nets[n].cover.cubes.lits.len() as i64;
                if after > self.literals as i64 {
                    self.tell(notes, &format!("# note literals {} {}", self.literals, after), n);
                } else {
                    self.tell(notes, "collapse", n);
                    self.collapse(n, &mut kept);
                }
            }
        }
    }

    fn run(&mut self, commands: &[Vec<&[u8]>], notes: &mut Vec<u8>) {
        for words in commands {
            notes.extend_from_slice(b"# begin ");
            notes.extend_from_slice(&words.join(&b' '));
            notes.push(b'\n');
            match words[0] {
                b"sweep" => self.sweep(notes),
                b"eliminate" => self.eliminate(notes),
                _ => self.collapse_named(words[1], notes),
            }
            notes.extend_from_slice(format!("# end {}\n", self.literals).as_bytes());
        }
    }

    // ------------------------------------------------------------ text

    fn text(&self) -> Vec<u8> {
        let mut t = Vec::with_capacity(1 << 16);
        let numbers: Vec<Vec<u8>> = (0..128).map(|v| v.to_string().into_bytes()).collect();
        t.extend_from_slice(b".model ");
        t.extend_from_slice(&self.root);
        t.push(b'\n');
        for (word, list) in [(".inputs", &self.inputs), (".outputs", &self.outputs)] {
            t.extend_from_slice(word.as_bytes());
            for &n in list {
                t.push(b' ');
                t.extend_from_slice(&self.nets[n as usize].name);
            }
            t.push(b'\n');
        }
        for (n, net) in self.nets.iter().enumerate() {
            if !net.held || net.name[0] == b'.' || (net.names.is_none() && self.counts[n] == 2) {
                continue;
            }
            t.extend_from_slice(b".mv ");
            t.extend_from_slice(&net.name);
            t.push(b' ');
            t.extend_from_slice(self.counts[n].to_string().as_bytes());
            for name in net.names.iter().flatten() {
                t.push(b' ');
                t.extend_from_slice(name);
            }
            t.push(b'\n');
        }
        for &(input, output) in &self.latches {
            t.extend_from_slice(b".latch ");
            t.extend_from_slice(&self.nets[input as usize].name);
            t.push(b' ');
            t.extend_from_slice(&self.nets[output as usize].name);
            t.push(b'\n');
        }
        let entry = |t: &mut Vec<u8>, n: usize, set: Set| {
            let name = |v: usize| match &self.nets[n].names {
                Some(names) => names[v].as_slice(),
                None => numbers[v].as_slice(),
            };
            if set == full(self.counts[n]) {
                t.push(b'-');
            } else if set.count_ones() == 1 {
                t.extend_from_slice(name(set.trailing_zeros() as usize));
            } else {
                let mut mark = b'(';
                let mut rest = set;
                while rest != 0 {
                    t.push(mark);
                    mark = b',';
                    t.extend_from_slice(name(rest.trailing_zeros() as usize));
                    rest &= rest - 1;
                }
                t.push(b')');
            }
        };
        for (n, net) in self.nets.iter().enumerate() {
            if !net.driven {
                continue;
            }
            let reset = net.name[0] == b'.';
            t.extend_from_slice(if reset { b".reset" } else { b".table" });
            for f in &net.fanins {
                t.push(b' ');
                t.extend_from_slice(&self.nets[f.net as usize].name);
            }
            t.extend_from_slice(b" -> ");
            t.extend_from_slice(&net.name[reset as usize..]);
            t.push(b'\n');
            if net.cover.default != 0 {
                t.extend_from_slice(b".default ");
                entry(&mut t, n, net.cover.default);
                t.push(b'\n');
            }
            for i in 0..net.cover.outs.len() {
                let c = net.cover.cubes.get(i);
                let mut k = 0;
                for f in &net.fanins {
                    if k < c.len() && c[k].net == f.net {
                        entry(&mut t, f.net as usize, c[k].set);
                        k += 1;
                    } else {
                        t.push(b'-');
                    }
                    t.push(b' ');
                }
                entry(&mut t, n, net.cover.outs[i]);
                t.push(b'\n');
            }
        }
        t.extend_from_slice(b".end\n");
        t
    }
}

// ---------------------------------------------------------------- script

fn bad_script(why: &str) -> ! {
    eprintln!("# fault script (plain program: {why})");
    std::process::exit(3)
}

fn tokens(text: &[u8]) -> Vec<&[u8]> {
    let mut list = vec![];
    let mut i = 0;
    while i < text.len() {
        match text[i] {
            b' ' | b'\t' | b'\r' | b'\n' => i += 1,
            b'#' => {
                while i < text.len() && text[i] != b'\n' {
                    i += 1;
                }
            }
            b';' => {
                list.push(&text[i..i + 1]);
                i += 1;
            }
            _ => {
                let start = i;
                while i < text.len() && !b" \t\r\n#;".contains(&text[i]) {
                    i += 1;
                }
                list.push(&text[start..i]);
            }
        }
    }
    list
}

fn read_script(text: &[u8]) -> Vec<Vec<&[u8]>> {
    let mut commands = vec![];
    let mut words = tokens(text).into_iter().filter(|w| *w != b";");
    while let Some(word) = words.next() {
        match word {
            b"sweep" | b"eliminate" => commands.push(vec![word]),
            b"collapse" => match words.next() {
                Some(name) => commands.push(vec![word, name]),
                None => bad_script("Missing"),
            },
            _ => bad_script("UnknownWord"),
        }
    }
    commands
}

// ---------------------------------------------------------------- reading

fn bad(why: &str, line: usize) -> ! {
    eprintln!("# fault network (plain program: {why}, line {line})");
    std::process::exit(2)
}

fn words_of(line: &'static [u8]) -> impl Iterator<Item = &'static [u8]> {
    line.split(|b| b" \t\r".contains(b)).filter(|w| !w.is_empty())
}

/// The lines of words without comments, joined at a last `\`.
fn scan(text: &'static [u8], tell: &mut dyn FnMut(usize, &[&'static [u8]])) {
    let mut words = vec![];
    for (k, piece) in text.split(|&b| b == b'\n').enumerate() {
        let hash = piece.iter().position(|&b| b == b'#');
        let line = &piece[..hash.unwrap_or(piece.len())];
        match line.strip_suffix(b"\\").filter(|_| hash.is_none()) {
            Some(begun) => words.extend(words_of(begun)),
            None => {
                words.extend(words_of(line));
                if !words.is_empty() {
                    tell(k + 1, &words);
                }
                words.clear();
            }
        }
    }
}

struct FileTable {
    line: usize,
    ins: Vec<u32>,
    out: u32,
    default: Option<&'static [u8]>,
    /// where the entries of its rows stand among those of all rows, row by row
    rows: std::ops::Range<usize>,
}

#[derive(Default)]
struct FileNet {
    name: Vec<u8>,
    count: u32,
    names: Option<Vec<Vec<u8>>>,
}

/// An instance: its model, its name, and each formal with the net to which it is bound.
struct Part {
    line: usize,
    model: &'static [u8],
    name: &'static [u8],
    binds: Vec<(&'static [u8], u32)>,
}

/// One model as its lines say it.
#[derive(Default)]
struct File {
    root: Vec<u8>,
    ids: FxMap<&'static [u8], u32>,
    nets: Vec<FileNet>,
    inputs: Vec<u32>,
    outputs: Vec<u32>,
    latches: Vec<(u32, u32)>,
    /// the net of each reset value, and its latch
    resets: Vec<(u32, u32)>,
    tables: Vec<FileTable>,
    parts: Vec<Part>,
    entries: Vec<&'static [u8]>,
    sizes: Vec<(Vec<&'static [u8]>, u32, Vec<Vec<u8>>)>,
    ended: bool,
}

impl File {
    fn id(&mut self, name: &'static [u8]) -> u32 {
        let next = self.nets.len() as u32;
        let id = *self.ids.entry(name).or_insert(next);
        if id == next {
            self.nets.push(FileNet { name: name.to_vec(), count: 2, names: None });
        }
        id
    }

    fn ids_of(&mut self, words: &[&'static [u8]]) -> Vec<u32> {
        words.iter().map(|w| self.id(w)).collect()
    }

    fn read_table(&mut self, line: usize, words: &[&'static [u8]]) {
        let columns: Vec<&'static [u8]> = words.iter().copied().filter(|w| *w != b"->").collect();
        if columns.is_empty() || words[..words.len().saturating_sub(2)].contains(&&b"->"[..]) {
            bad("not one output", line);
        }
        let mut ins = self.ids_of(&columns);
        let out = ins.pop().unwrap();
        let at = self.entries.len();
        self.tables.push(FileTable { line, ins, out, default: None, rows: at..at });
    }

    fn read_sizes(&mut self, line: usize, words: &[&'static [u8]]) {
        let mut names = vec![];
        let mut k = 0;
        while k < words.len() {
            let word = words[k];
            k += 1;
            names.extend(word.split(|&b| b == b',').filter(|n| !n.is_empty()));
            if word.last() != Some(&b',') {
                break;
            }
        }
        let count = words.get(k).and_then(|w| std::str::from_utf8(w).ok()).and_then(|w| w.parse::<u32>().ok());
        let Some(count) = count.filter(|c| (1..=128).contains(c)) else { bad("count", line) };
        let values: Vec<Vec<u8>> = words[k + 1..].iter().map(|w| w.to_vec()).collect();
        if !values.is_empty() && values.len() != count as usize {
            bad("value names", line);
        }
        self.sizes.push((names, count, values));
    }

    fn read_line(&mut self, line: usize, words: &[&'static [u8]]) {
        match words[0] {
            b".model" if self.root.is_empty() && words.len() == 2 => self.root = words[1].to_vec(),
            b".inputs" => {
                let ids = self.ids_of(&words[1..]);
                self.inputs.extend(ids);
            }
            b".outputs" => {
                let ids = self.ids_of(&words[1..]);
                self.outputs.extend(ids);
            }
            b".mv" => self.read_sizes(line, &words[1..]),
            b".table" | b".names" => self.read_table(line, &words[1..]),
            b".reset" | b".r" => {
                self.read_table(line, &words[1..]);
                let table = self.tables.last_mut().unwrap();
                let latch = table.out;
                let name = [b".", self.nets[latch as usize].name.as_slice()].concat();
                table.out = self.nets.len() as u32;
                self.resets.push((table.out, latch));
                self.nets.push(FileNet { name, count: 2, names: None });
            }
            b".latch" if words.len() == 3 => {
                let ids = self.ids_of(&words[1..]);
                self.latches.push((ids[0], ids[1]));
            }
            b".subckt" if words.len() >= 3 => {
                let mut binds = vec![];
                for word in &words[3..] {
                    let at = word.iter().position(|&b| b == b'=').unwrap_or_else(|| bad("binding", line));
                    binds.push((&word[..at], self.id(&word[at + 1..])));
                }
                self.parts.push(Part { line, model: words[1], name: words[2], binds });
            }
            b".end" => self.ended = true,
            word => {
                let Some(table) = self.tables.last_mut() else { bad("no table", line) };
                if word == b".default" && words.len() == 2 && table.default.is_none() {
                    table.default = Some(words[1]);
                } else if word[0] != b'.' && words.len() == table.ins.len() + 1 {
                    self.entries.extend(words);
                    table.rows.end = self.entries.len();
                } else {
                    bad("not read by this program", line);
                }
            }
        }
    }

    fn set_sizes(&mut self) {
        for (names, count, values) in std::mem::take(&mut self.sizes) {
            let numbers = values.iter().enumerate().all(|(v, n)| *n == v.to_string().into_bytes());
            for n in names {
                if let Some(&id) = self.ids.get(n) {
                    self.nets[id as usize].count = count;
                    self.nets[id as usize].names = if numbers { None } else { Some(values.clone()) };
                }
            }
        }
        for &(reset, latch) in &self.resets {
            self.nets[reset as usize].count = self.nets[latch as usize].count;
            self.nets[reset as usize].names = self.nets[latch as usize].names.clone();
        }
    }
}

fn value_of(net: &FileNet, word: &[u8]) -> Option<u32> {
    match &net.names {
        Some(names) => names.iter().position(|n| n == word).map(|v| v as u32),
        None => {
            if word.is_empty() || word.len() > 3 || (word.len() > 1 && word[0] == b'0') || !word.iter().all(u8::is_ascii_digit) {
                return None;
            }
            let v = word.iter().fold(0u32, |v, &b| v * 10 + (b - b'0') as u32);
            (v < net.count).then_some(v)
        }
    }
}

fn set_of(net: &FileNet, word: &[u8], line: usize) -> Set {
    if word == b"-" {
        return full(net.count);
    }
    let list = match word.first() {
        Some(b'(') if word.last() == Some(&b')') => &word[1..word.len() - 1],
        _ => word,
    };
    list.split(|&b| b == b',').map(|item| 1 << value_of(net, item).unwrap_or_else(|| bad("value", line))).fold(0, |a, b: Set| a | b)
}

impl std::hash::Hash for Lit {
    fn hash<H: Hasher>(&self, h: &mut H) {
        h.write_u32(self.net);
        h.write_u128(self.set);
    }
}

/// Takes away each line that is equal to an earlier one.
fn distinct(c: &mut Cover) {
    let lines = c.outs.len();
    let mut twice = vec![];
    if lines <= 8 {
        twice.extend((1..lines).filter(|&i| (0..i).any(|j| c.outs[i] == c.outs[j] && c.cubes.get(i) == c.cubes.get(j))));
    } else {
        let mut had: FxSet<(&[Lit], Set)> = FxSet::default();
        twice.extend((0..lines).filter(|&i| !had.insert((c.cubes.get(i), c.outs[i]))));
    }
    if twice.is_empty() {
        return;
    }
    let mut new = Cover { default: c.default, ..Cover::default() };
    for i in 0..lines {
        if twice.binary_search(&i).is_err() {
            new.cubes.lits.extend_from_slice(c.cubes.get(i));
            new.cubes.close();
            new.outs.push(c.outs[i]);
        }
    }
    *c = new;
}

/// The columns of a table by the number of their net, each net once with its places in the rows.
fn columns_of(t: &FileTable, number: &[u32]) -> Vec<(u32, Vec<usize>)> {
    let mut by: Vec<(u32, Vec<usize>)> = vec![];
    for (k, &id) in t.ins.iter().enumerate() {
        by.push((number[id as usize], vec![k]));
    }
    by.sort_by_key(|c| c.0);
    by.dedup_by(|c, kept| c.0 == kept.0 && { kept.1.extend(&c.1); true });
    by
}

/// The place of the input column that an entry `=x` names.
fn named_column(t: &FileTable, file: &File, word: &[u8]) -> Option<usize> {
    let name = word.strip_prefix(b"=")?;
    Some(t.ins.iter().position(|&id| file.nets[id as usize].name == name).unwrap_or_else(|| bad("value", t.line)))
}

/// Whether the table's default names a column, and no row is without literals.
fn has_mark(t: &FileTable, file: &File) -> bool {
    let all = |row: &[&'static [u8]]| t.ins.iter().zip(row).all(|(&id, w)| set_of(&file.nets[id as usize], w, t.line) == full(file.nets[id as usize].count));
    t.default.is_some_and(|d| d.first() == Some(&b'=')) && !file.entries[t.rows.clone()].chunks_exact(t.ins.len() + 1).any(all)
}

/// The covers of a table and of its mark, if it has one, whose literals are of the nets' numbers.
fn cover_of(t: &FileTable, file: &File, number: &[u32], mark: Option<u32>) -> (Cover, Option<Cover>) {
    let net = |k: usize| &file.nets[t.ins[k] as usize];
    let out_net = &file.nets[t.out as usize];
    let default = t.default.filter(|d| d[0] != b'=').map_or(0, |w| set_of(out_net, w, t.line));
    let mut cover = Cover { default, ..Cover::default() };
    let mut marked = Cover { default: 2, ..Cover::default() };
    let by = columns_of(t, number);
    let mut met: Vec<Set> = vec![0; by.len()];
    for row in file.entries[t.rows.clone()].chunks_exact(t.ins.len() + 1) {
        for (c, set) in by.iter().zip(&mut met) {
            *set = c.1.iter().fold(full(net(c.1[0]).count), |s, &k| s & set_of(net(k), row[k], t.line));
        }
        if met.contains(&0) {
            continue;
        }
        let out = row[t.ins.len()];
        let named = named_column(t, file, out).map(|k| by.iter().position(|c| c.1.contains(&k)).unwrap());
        let mut rest = named.map_or(1, |c| met[c]);
        while rest != 0 {
            let one = rest & rest.wrapping_neg();
            rest &= rest - 1;
            for (c, column) in by.iter().enumerate() {
                let set = if named == Some(c) { one } else { met[c] };
                if set != full(net(column.1[0]).count) {
                    cover.cubes.lits.push(Lit { net: column.0, set });
                }
            }
            cover.cubes.close();
            cover.outs.push(if named.is_some() { one } else { set_of(out_net, out, t.line) });
        }
        if mark.is_some() {
            for (column, &set) in by.iter().zip(&met) {
                if set != full(net(column.1[0]).count) {
                    marked.cubes.lits.push(Lit { net: column.0, set });
                }
            }
            marked.cubes.close();
            marked.outs.push(1);
        }
    }
    if (0..cover.cubes.len()).any(|i| cover.cubes.get(i).is_empty()) {
        cover.default = 0;
    }
    if let Some(mark) = mark {
        let k = named_column(t, file, t.default.unwrap()).unwrap();
        for value in 0..net(k).count {
            let mut lits = vec![Lit { net: mark, set: 2 }];
            if net(k).count > 1 {
                lits.push(Lit { net: number[t.ins[k] as usize], set: 1 << value });
            }
            lits.sort_by_key(|l| l.net);
            cover.cubes.lits.extend(lits);
            cover.cubes.close();
            cover.outs.push(1 << value);
        }
        distinct(&mut marked);
    }
    distinct(&mut cover);
    (cover, mark.map(|_| marked))
}

/// An instance of a model, or the root: the net of the whole that each net of the model is.
struct Instance {
    model: usize,
    home: Vec<u32>,
}

/// The nets of the whole, and the instances in unfolding order, the root first.
struct Whole<'a> {
    files: &'a [File],
    by_name: FxMap<&'a [u8], usize>,
    nets: Vec<FileNet>,
    instances: Vec<Instance>,
}

impl Whole<'_> {
    /// Adds an instance with nets of this path, of which these are bound, and those inside it.
    fn add(&mut self, model: usize, path: &[u8], bound: &FxMap<u32, u32>, depth: usize) {
        let file = &self.files[model];
        let mut home = Vec::with_capacity(file.nets.len());
        for (id, net) in file.nets.iter().enumerate() {
            home.push(bound.get(&(id as u32)).copied().unwrap_or(self.nets.len() as u32));
            if home[id] as usize == self.nets.len() {
                self.nets.push(FileNet { name: [path, &net.name].concat(), count: net.count, names: net.names.clone() });
            }
        }
        for &(reset, latch) in &file.resets {
            self.nets[home[reset as usize] as usize].name = [b".", self.nets[home[latch as usize] as usize].name.as_slice()].concat();
        }
        self.instances.push(Instance { model, home });
        let at = self.instances.len() - 1;
        for part in &file.parts {
            let inner = *self.by_name.get(part.model).filter(|_| depth < 64).unwrap_or_else(|| bad("no such model", part.line));
            let ids = &self.files[inner].ids;
            let home = &self.instances[at].home;
            let bound = part.binds.iter().map(|&(f, a)| (*ids.get(f).unwrap_or_else(|| bad("no formal", part.line)), home[a as usize])).collect();
            self.add(inner, &[path, part.name, b"."].concat(), &bound, depth + 1);
        }
    }
}

/// The models of the file.
fn read_models(text: &'static [u8]) -> Vec<File> {
    let mut files: Vec<File> = vec![];
    scan(text, &mut |line, words| {
        if files.last().is_none_or(|f| f.ended) {
            files.push(File::default());
        }
        files.last_mut().unwrap().read_line(line, words);
    });
    if !files.last().is_some_and(|f| f.ended) || files.iter().any(|f| f.root.is_empty()) {
        bad("no end", 0);
    }
    files.iter_mut().for_each(File::set_sizes);
    files
}

/// The nets and the instances of the root.
fn unfold(files: &mut [File]) -> (Vec<FileNet>, Vec<Instance>) {
    if files[0].parts.is_empty() {
        let nets = std::mem::take(&mut files[0].nets);
        let home = (0..nets.len() as u32).collect();
        return (nets, vec![Instance { model: 0, home }]);
    }
    let by_name = files.iter().enumerate().map(|(k, f)| (f.root.as_slice(), k)).collect();
    let mut whole = Whole { files, by_name, nets: vec![], instances: vec![] };
    whole.add(0, b"", &FxMap::default(), 0);
    (whole.nets, whole.instances)
}

fn read_network(text: &'static [u8]) -> Network {
    let mut files = read_models(text);
    let (mut nets, instances) = unfold(&mut files);
    // numbers: the inputs, then the latches' outputs, then the nets of tables and reset tables in order
    let root = &instances[0].home;
    let latches: Vec<(u32, u32)> =
        instances.iter().flat_map(|i| files[i.model].latches.iter().map(|l| (i.home[l.0 as usize], i.home[l.1 as usize]))).collect();
    let inputs = files[0].inputs.iter().map(|&n| root[n as usize]);
    let mut order: Vec<u32> = inputs.chain(latches.iter().map(|l| l.1)).collect();
    // a root without instances has the nets of the whole
    let alone = files[0].nets.is_empty();
    if alone {
        files[0].nets = std::mem::take(&mut nets);
    }
    let held: FxSet<Vec<u8>> = files[0].nets.iter().chain(&nets).filter(|n| n.name.starts_with(b"_m")).map(|n| n.name.clone()).collect();
    let mut last = 0;
    // the net of each mark, and the table's net behind it
    let mut marks: FxMap<u32, u32> = FxMap::default();
    let mut made = vec![];
    let count = if alone { files[0].nets.len() } else { nets.len() } as u32;
    for i in &instances {
        for t in &files[i.model].tables {
            let out = i.home[t.out as usize];
            if has_mark(t, &files[i.model]) {
                last = (last + 1..).find(|k| !held.contains(format!("_m{k}").as_bytes())).unwrap();
                marks.insert(out, count + made.len() as u32);
                order.push(count + made.len() as u32);
                made.push(FileNet { name: format!("_m{last}").into_bytes(), count: 2, names: None });
            }
            order.push(out);
        }
    }
    let mut number = vec![u32::MAX; count as usize + made.len()];
    for (k, &id) in order.iter().enumerate() {
        if number[id as usize] != u32::MAX {
            bad("driven twice", 0);
        }
        number[id as usize] = k as u32;
    }
    if number.contains(&u32::MAX) {
        bad("undriven", 0);
    }
    let mut covers = vec![];
    for i in &instances {
        let numbers: Vec<u32> = i.home.iter().map(|&id| number[id as usize]).collect();
        let file = &files[i.model];
        for t in &file.tables {
            let mark = marks.get(&i.home[t.out as usize]).map(|&m| number[m as usize]);
            let (cover, marked) = cover_of(t, file, &numbers, mark);
            covers.extend(marked.map(|m| (mark.unwrap(), m)));
            covers.push((numbers[t.out as usize], cover));
        }
    }
    let size = order.len();
    if alone {
        nets = std::mem::take(&mut files[0].nets);
    }
    nets.extend(made);
    let mut net = Network {
        root: vec![],
        inputs: files[0].inputs.iter().map(|&n| number[root[n as usize] as usize]).collect(),
        outputs: files[0].outputs.iter().map(|&n| number[root[n as usize] as usize]).collect(),
        latches: latches.iter().map(|l| (number[l.0 as usize], number[l.1 as usize])).collect(),
        nets: vec![],
        counts: order.iter().map(|&id| nets[id as usize].count).collect(),
        literals: 0,
        heap: MinSet::new(size),
        scratch: Scratch::new(size),
        fresh_at: vec![0; size],
        by_name: FxMap::default(),
    };
    for &id in &order {
        let f = std::mem::take(&mut nets[id as usize]);
        net.nets.push(Net { name: f.name, names: f.names, held: true, all_dirty: true, ..Net::default() });
    }
    net.root = std::mem::take(&mut files[0].root);
    for (n, cover) in covers {
        net.nets[n as usize].driven = true;
        net.set_table(n as usize, cover, Told::Unknown, Told::Unknown);
        net.nets[n as usize].absorbed = false;
    }
    let resets = instances.iter().flat_map(|i| files[i.model].resets.iter().map(|r| number[i.home[r.0 as usize] as usize]));
    for o in net.outputs.iter().copied().chain(net.latches.iter().map(|l| l.0)).chain(resets) {
        net.nets[o as usize].seen = true;
    }
    while net.heap.pop().is_some() {}
    net
}

fn slurp(name: &str) -> Vec<u8> {
    let mut v = vec![];
    let ok = if name == "-" { std::io::stdin().read_to_end(&mut v).map(|_| ()) } else { std::fs::read(name).map(|b| v = b) };
    if ok.is_err() {
        eprintln!("# fault read");
        std::process::exit(4);
    }
    v
}

fn main() {
    let args: Vec<String> = std::env::args().collect();
    if args.len() != 4 || args[1] != "opt" {
        eprintln!("# fault words");
        std::process::exit(1);
    }
    let script = slurp(&args[3]);
    let commands = read_script(&script);
    let text: &'static [u8] = Box::leak(slurp(&args[2]).into_boxed_slice());
    let mut net = read_network(text);
    if commands.iter().any(|c| c[0] == b"collapse") {
        net.by_name = net.nets.iter().enumerate().map(|(n, x)| (x.name.clone(), n as u32)).collect();
    }
    let before = net.literals;
    let mut notes = vec![];
    net.run(&commands, &mut notes);
    notes.extend_from_slice(format!("# done {} {}\n", before, net.literals).as_bytes());
    let out = net.text();
    if std::io::stderr().write_all(&notes).is_err() || std::io::stdout().write_all(&out).is_err() {
        std::process::exit(5);
    }
    std::process::exit(0);
}
