//! Drawn inputs for mvopt: networks in BLIF-MV and BLIF, scripts, certificates and run files, drawn, mutated and spliced from real
//! ones. Each run has a seed, and a case is drawn anew from its number: `drawn PROGRAM FOLDER COUNT SEED` tries the cases 0 to COUNT - 1, and
//! `drawn PROGRAM FOLDER COUNT SEED FIRST` those from FIRST on. What isn't as it should be is told by a line, with the number.
use std::collections::BTreeMap;
use std::fs;
use std::path::{Path, PathBuf};
use std::process::{Command, Stdio};
use std::sync::atomic::{AtomicU64, Ordering};
use std::sync::Mutex;

const THREADS: usize = 4;
const MOST_NOTES: usize = 64 << 20;
const COMMANDS: [&str; 14] = [
    "drop", "sweep", "eliminate", "kernel", "cube", "simplify 0 0", "simplify 1 1", "simplify 2 0", "merge", "default",
    "determinize", "encode", "fill", "collapse n1",
];

/// Numbers drawn in a row (splitmix64).
struct Draw(u64);

impl Draw {
    fn next(&mut self) -> u64 {
        self.0 = self.0.wrapping_add(0x9e37_79b9_7f4a_7c15);
        let mut z = self.0;
        z = (z ^ (z >> 30)).wrapping_mul(0xbf58_476d_1ce4_e5b9);
        z = (z ^ (z >> 27)).wrapping_mul(0x94d0_49bb_1331_11eb);
        z ^ (z >> 31)
    }
    fn below(&mut self, end: usize) -> usize {
        (self.next() % end as u64) as usize
    }
    fn one_in(&mut self, n: usize) -> bool {
        self.below(n) == 0
    }
    fn of<'a, T>(&mut self, all: &'a [T]) -> &'a T {
        &all[self.below(all.len())]
    }
}

/// Nets of a model that is being drawn, with how many values each has.
struct Nets {
    named: Vec<(String, usize)>,
}

/// An entry over so many values.
fn entry(draw: &mut Draw, count: usize) -> String {
    match draw.below(8) {
        0 | 1 => "-".into(),
        2 if count > 2 => {
            let first = draw.below(count - 1);
            format!("({first}-{})", first + 1 + draw.below(count - first - 1))
        }
        3 => format!("!{}", draw.below(count)),
        4 => format!("({},{})", draw.below(count), draw.below(count)),
        _ => draw.below(count).to_string(),
    }
}

/// A table of one or two outputs over nets that are there.
fn table(draw: &mut Draw, nets: &mut Nets, name: &str, counts: &[usize], head: &str) -> String {
    let ins: Vec<(String, usize)> = (0..draw.below(4)).filter(|_| !nets.named.is_empty()).map(|_| nets.named[draw.below(nets.named.len())].clone()).collect();
    let outs: Vec<(String, usize)> = counts.iter().enumerate().map(|(k, count)| (if k == 0 { name.to_string() } else { format!("{name}.{k}") }, *count)).collect();
    let words = |all: &[(String, usize)]| all.iter().map(|(n, _)| n.as_str()).collect::<Vec<_>>().join(" ");
    let mut text = String::new();
    for (net, count) in &outs {
        if *count != 2 && head == ".table" {
            text += &format!(".mv {net} {count}\n");
        }
    }
    text += &format!("{head} {} -> {}\n", words(&ins), words(&outs));
    let out = |draw: &mut Draw, count: usize| {
        let same: Vec<&(String, usize)> = ins.iter().filter(|(_, n)| *n == count).collect();
        if !same.is_empty() && draw.one_in(8) { format!("={}", draw.of(&same).0) } else { entry(draw, count) }
    };
    if draw.one_in(2) {
        let all: Vec<String> = outs.iter().map(|(_, n)| out(draw, *n)).collect();
        text += &format!(".default {}\n", all.join(" "));
    }
    for _ in 0..draw.below(6) {
        let mut row: Vec<String> = ins.iter().map(|(_, n)| entry(draw, *n)).collect();
        row.extend(outs.iter().map(|(_, n)| out(draw, *n)));
        text += &format!("{}\n", row.join(" "));
    }
    if head == ".table" {
        nets.named.extend(outs);
    }
    text
}

/// A network: one model, or one with two instances of another.
fn network(draw: &mut Draw) -> String {
    let inner = draw.one_in(4);
    let mut text = model(draw, "m", inner);
    if inner {
        let mut nets = Nets { named: vec![("f".into(), 2)] };
        text += &format!(".model inner\n.inputs f\n.outputs g\n{}{}.end\n", table(draw, &mut nets, "h", &[2], ".table"), table(draw, &mut nets, "g", &[2], ".table"));
    }
    text
}

fn model(draw: &mut Draw, name: &str, inner: bool) -> String {
    let mut nets = Nets { named: Vec::new() };
    let mut text = format!(".model {name}\n");
    for k in 0..draw.below(4) {
        let count = *draw.of(&[2, 2, 2, 3, 1, 4]);
        text += &format!(".inputs i{k}\n");
        if count != 2 {
            text += &format!(".mv i{k} {count}\n");
        }
        nets.named.push((format!("i{k}"), count));
    }
    let latches: Vec<usize> = (0..draw.below(3)).map(|_| *draw.of(&[2, 2, 3])).collect();
    for (k, count) in latches.iter().enumerate() {
        text += &format!(".latch d{k} q{k}\n");
        if *count != 2 {
            text += &format!(".mv q{k} {count}\n");
        }
        if draw.one_in(2) {
            let mut none = Nets { named: Vec::new() };
            text += &table(draw, &mut none, &format!("q{k}"), &[*count], ".reset");
        }
        nets.named.push((format!("q{k}"), *count));
    }
    for k in 0..1 + draw.below(6) {
        let mut counts = vec![*draw.of(&[2, 2, 2, 3, 4, 1, 5])];
        if draw.one_in(6) {
            counts.push(*draw.of(&[2, 3]));
        }
        text += &table(draw, &mut nets, &format!("n{k}"), &counts, ".table");
    }
    for (k, count) in latches.iter().enumerate() {
        text += &table(draw, &mut nets, &format!("d{k}"), &[*count], ".table");
    }
    if inner {
        if let Some((net, _)) = nets.named.iter().find(|(_, n)| *n == 2).cloned() {
            text += &format!(".subckt inner u f={net} g=x1\n.subckt inner v f=x1 g=x2\n");
            nets.named.push(("x2".into(), 2));
        }
    }
    for _ in 0..1 + draw.below(3) {
        if let Some((net, _)) = nets.named.get(draw.below(nets.named.len().max(1))) {
            if !text.contains(&format!(".outputs {net}\n")) {
                text += &format!(".outputs {net}\n");
            }
        }
    }
    text + ".end\n"
}

/// A table of BLIF over nets that are there.
fn names_table(draw: &mut Draw, named: &[String], name: &str) -> String {
    let ins: Vec<&str> = (0..draw.below(4)).filter(|_| !named.is_empty()).map(|_| named[draw.below(named.len())].as_str()).collect();
    let value = draw.below(2);
    let mut text = format!(".names {} {name}\n", ins.join(" "));
    for _ in 0..draw.below(5) {
        let plane: String = ins.iter().map(|_| *draw.of(&['0', '1', '-'])).collect();
        text += &format!("{plane} {value}\n");
    }
    text
}

/// What stands behind the nets of a latch.
fn settings(draw: &mut Draw, inputs: usize) -> String {
    let control = if inputs > 0 && draw.one_in(2) { format!("i{}", draw.below(inputs)) } else { "NIL".into() };
    let kind = if draw.one_in(2) { format!(" {} {control}", draw.of(&["fe", "re", "ah", "al", "as"])) } else { String::new() };
    let first = if draw.one_in(2) { format!(" {}", draw.below(4)) } else { String::new() };
    kind + &first
}

/// A network in BLIF.
fn blif(draw: &mut Draw) -> String {
    let (inputs, latches) = (draw.below(4), draw.below(3));
    let mut named: Vec<String> = (0..inputs).map(|k| format!("i{k}")).collect();
    let mut text = String::from(".model m\n");
    for input in &named {
        text += &format!(".inputs {input}\n");
    }
    for k in 0..latches {
        text += &format!(".latch d{k} q{k}{}\n", settings(draw, inputs));
        named.push(format!("q{k}"));
    }
    for k in 0..1 + draw.below(7) {
        text += &names_table(draw, &named, &format!("n{k}"));
        named.push(format!("n{k}"));
    }
    for k in 0..latches {
        text += &names_table(draw, &named, &format!("d{k}"));
    }
    for _ in 0..1 + draw.below(3) {
        let output = draw.of(&named);
        if !text.contains(&format!(".outputs {output}\n")) {
            text += &format!(".outputs {output}\n");
        }
    }
    text + ".end\n"
}

/// What a BLIF file without comments says, read without a check.
#[derive(Default)]
struct Blif<'a> {
    inputs: Vec<&'a str>,
    outputs: Vec<&'a str>,
    /// The words behind `.latch`, with a first value.
    latches: Vec<Vec<&'a str>>,
    /// The words behind `.names`, and the rows.
    tables: Vec<(Vec<&'a str>, Vec<&'a str>)>,
}

impl<'a> Blif<'a> {
    fn of(text: &'a str) -> Self {
        let mut said = Blif::default();
        for line in text.lines() {
            let words: Vec<&str> = line.split_whitespace().collect();
            match words[..] {
                [".inputs", ..] => said.inputs.extend(&words[1..]),
                [".outputs", ..] => said.outputs.extend(&words[1..]),
                [".latch", ..] => {
                    let mut latch = words[1..].to_vec();
                    if latch.len() % 2 == 0 {
                        latch.push("3");
                    }
                    said.latches.push(latch);
                }
                [".names", ..] => said.tables.push((words[1..].to_vec(), Vec::new())),
                [] | [".model", ..] | [".end"] => {}
                _ => said.tables.last_mut().expect("a table").1.push(line),
            }
        }
        said
    }

    /// Whether both look alike from outside.
    fn is_like(&self, other: &Self) -> bool {
        let seen = |latch: &Vec<&'a str>| latch[1..].to_vec();
        self.inputs == other.inputs && self.outputs == other.outputs && self.latches.iter().map(seen).eq(other.latches.iter().map(seen))
    }

    /// The values of the outputs and of the inputs of the latches, where inputs and outputs of latches have the bits of a number.
    fn seen(&self, point: usize) -> Vec<bool> {
        let ports = self.inputs.iter().copied().chain(self.latches.iter().map(|latch| latch[1]));
        let mut values: BTreeMap<&str, bool> = ports.enumerate().map(|(k, net)| (net, point >> k & 1 == 1)).collect();
        while self.tables.iter().any(|(nets, _)| !values.contains_key(nets[nets.len() - 1])) {
            for (nets, rows) in &self.tables {
                let (net, ins) = nets.split_last().expect("a net");
                if let Some(ins) = ins.iter().map(|n| values.get(n).copied()).collect::<Option<Vec<bool>>>() {
                    values.insert(net, value_of(&ins, rows));
                }
            }
        }
        self.outputs.iter().copied().chain(self.latches.iter().map(|latch| latch[0])).map(|net| values[net]).collect()
    }
}

/// The value that rows give.
fn value_of(ins: &[bool], rows: &[&str]) -> bool {
    let holds = |row: &&&str| row.bytes().zip(ins).all(|(b, v)| b == b'-' || (b == b'1') == *v);
    let of = |row: &&str| row.ends_with('1');
    rows.iter().find(holds).map_or(rows.first().is_some_and(|row| !of(row)), of)
}

/// Whether two BLIF files of a few nets allow the same.
fn are_same(one: &str, other: &str) -> bool {
    let (one, other) = (Blif::of(one), Blif::of(other));
    one.is_like(&other) && (0..1 << (one.inputs.len() + one.latches.len())).all(|point| one.seen(point) == other.seen(point))
}

/// A script of some commands.
fn script(draw: &mut Draw) -> String {
    let mut text = String::new();
    for _ in 0..draw.below(5) {
        let command = draw.of(&COMMANDS);
        text += &match draw.below(8) {
            0 => format!("better {{ {command}; sweep }}; "),
            1 => format!("repeat 2 {{ {command} }} "),
            _ => format!("{command}; "),
        };
    }
    text
}

/// A run of so many columns.
fn run_text(draw: &mut Draw, columns: usize) -> String {
    let mut text = String::new();
    for _ in 0..draw.below(6) {
        let row: Vec<String> = (0..columns).map(|_| draw.below(3).to_string()).collect();
        text += &format!("{}\n", row.join(" "));
    }
    text
}

/// The bytes with some of them changed, gone or doubled, or with lines or words changed about, or with those of others among them.
fn mutated(draw: &mut Draw, bytes: &[u8], others: &[Vec<u8>]) -> Vec<u8> {
    let mut made = bytes.to_vec();
    for _ in 0..1 + draw.below(3) {
        made = match draw.below(7) {
            0 => changed_byte(draw, made),
            1 | 2 => changed_line(draw, &made),
            3 | 4 => changed_word(draw, &made),
            5 => {
                let other = draw_other(draw, others);
                spliced(draw, &made, other)
            }
            _ => {
                let cut = draw.below(made.len() + 1);
                made[..cut].to_vec()
            }
        };
    }
    made
}

fn draw_other(draw: &mut Draw, others: &[Vec<u8>]) -> Vec<u8> {
    if others.is_empty() { Vec::new() } else { draw.of(others).clone() }
}

fn changed_byte(draw: &mut Draw, mut bytes: Vec<u8>) -> Vec<u8> {
    let at = draw.below(bytes.len() + 1);
    let byte = if draw.one_in(3) { draw.below(256) as u8 } else { *draw.of(b"01-()!=,.{}#\\ \n\t\r;a") };
    match draw.below(3) {
        0 if at < bytes.len() => bytes[at] = byte,
        1 if at < bytes.len() => drop(bytes.remove(at)),
        _ => bytes.insert(at, byte),
    }
    bytes
}

fn changed_line(draw: &mut Draw, bytes: &[u8]) -> Vec<u8> {
    let mut lines: Vec<Vec<u8>> = bytes.split(|b| *b == b'\n').map(<[u8]>::to_vec).collect();
    let (at, to) = (draw.below(lines.len()), draw.below(lines.len()));
    match draw.below(3) {
        0 => drop(lines.remove(at)),
        1 => lines.insert(to, lines[at].clone()),
        _ => lines.swap(at, to),
    }
    lines.join(&b'\n')
}

fn changed_word(draw: &mut Draw, bytes: &[u8]) -> Vec<u8> {
    let mut words: Vec<Vec<u8>> = bytes.split(|b| *b == b' ').map(<[u8]>::to_vec).collect();
    let (at, to) = (draw.below(words.len()), draw.below(words.len()));
    match draw.below(4) {
        0 => drop(words.remove(at)),
        1 => words.insert(to, words[at].clone()),
        2 => words[at] = draw.below(7).to_string().into_bytes(),
        _ => words.swap(at, to),
    }
    words.join(&b' ')
}

/// A first part of one and a last part of the other, each of whole lines.
fn spliced(draw: &mut Draw, a: &[u8], b: Vec<u8>) -> Vec<u8> {
    let (a, b): (Vec<&[u8]>, Vec<&[u8]>) = (a.split(|x| *x == b'\n').collect(), b.split(|x| *x == b'\n').collect());
    let (to, from) = (draw.below(a.len() + 1), draw.below(b.len() + 1));
    [&a[..to], &b[from..]].concat().join(&b'\n')
}

/// How a run ended.
struct Ran {
    status: i32,
    out: Vec<u8>,
    notes: Vec<u8>,
}

/// What the cases of one thread are tried with.
struct Trial<'a> {
    program: &'a str,
    folder: PathBuf,
    found: &'a Mutex<Vec<String>>,
    counts: &'a Mutex<BTreeMap<String, u64>>,
    case: u64,
}

impl Trial<'_> {
    fn write(&self, name: &str, bytes: &[u8]) -> String {
        let path = self.folder.join(name);
        fs::write(&path, bytes).expect("a file in the folder");
        path.to_str().expect("a name").to_string()
    }

    /// Runs the program, and tells an end that no table has.
    fn run(&self, words: &[&str], ends: &[(i32, &str)]) -> Ran {
        let output = Command::new(self.program).args(words).stdin(Stdio::null()).output().expect("a run");
        let ran = Ran { status: output.status.code().unwrap_or(-1), out: output.stdout, notes: output.stderr };
        let last = ran.notes.strip_suffix(b"\n").unwrap_or(&ran.notes).rsplit(|b| *b == b'\n').next().unwrap_or(b"");
        if !ends.iter().any(|(status, line)| *status == ran.status && last.starts_with(line.as_bytes())) {
            self.tell(&format!("{} ends with {} and {:?}", words[0], ran.status, String::from_utf8_lossy(last)));
        }
        if !matches!(ran.status, 0 | 9) && !ran.out.is_empty() {
            self.tell(&format!("{} ends with {} and an output", words[0], ran.status));
        }
        *self.counts.lock().unwrap().entry(format!("{} {}", words[0], ran.status)).or_default() += 1;
        ran
    }

    fn tell(&self, what: &str) {
        self.found.lock().unwrap().push(format!("case {}: {what}", self.case));
    }

    /// A network and a script, with these options; what was written is read again, and what was noted is checked.
    fn optimise(&self, draw: &mut Draw, net: &[u8], script: &[u8], options: &[&str]) -> Ran {
        let (net, script) = (self.write("net", net), self.write("script", script));
        let ends = [(0, "# done "), (2, "# fault network "), (3, "# fault script ")];
        let ran = self.run(&[&["opt", &net, &script], options].concat(), &ends);
        if ran.status == 0 {
            self.read_again(&ran.out, options);
            if ran.notes.len() <= MOST_NOTES {
                let cert = self.write("cert", &ran.notes);
                let checked = self.run(&[&["check", &net, &cert], options].concat(), &[(0, "# done ")]);
                if checked.out != ran.out {
                    self.tell("check writes something else");
                }
                let changed = mutated(draw, &ran.notes, &[]);
                let cert = self.write("cert", &changed);
                self.run(&[&["check", &net, &cert], options].concat(), &[(0, "# done "), (7, "# fault certificate ")]);
            }
        }
        ran
    }

    /// What was written is read again, or passes a limit. In BLIF-MV it is written again as it is; in BLIF a table that is
    /// constant may lose its columns.
    fn read_again(&self, out: &[u8], options: &[&str]) {
        let (again, empty) = (self.write("again", out), self.write("empty", b""));
        let ran = self.run(&[&["opt", &again, &empty], options].concat(), &[(0, "# done "), (2, "# fault network 21 Limit ")]);
        if ran.status == 0 && ran.out != out && !options.contains(&"--blif") {
            self.tell("what was written isn't written again");
        }
    }

    /// A network in BLIF and a script: both files allow the same.
    fn optimise_blif(&self, draw: &mut Draw, script: &[u8], free: bool, real: &[Vec<u8>]) {
        let options: &[&str] = if free { &["--blif", "--free"] } else { &["--blif"] };
        let net = blif(draw);
        if draw.one_in(4) {
            let net = mutated(draw, net.as_bytes(), real);
            self.optimise(draw, &net, script, options);
            return;
        }
        let ran = self.optimise(draw, net.as_bytes(), script, options);
        if ran.status == 0 && !are_same(&net, &String::from_utf8_lossy(&ran.out)) {
            self.tell("the two BLIF files don't allow the same");
        }
    }

    /// A network and a run of it.
    fn trace(&self, net: &[u8], run: &[u8]) {
        let (net, run) = (self.write("net", net), self.write("run", run));
        let ends = [(0, ""), (9, ""), (2, "# fault network "), (11, "# fault trace ")];
        let ran = self.run(&["trace", &net, &run], &ends);
        let is_told = match ran.status {
            0 => ran.out.starts_with(b"yes\n") && ran.notes.is_empty(),
            9 => ran.out.starts_with(b"no ") && ran.notes.is_empty(),
            _ => true,
        };
        if !is_told {
            self.tell("trace tells something else");
        }
    }

    /// One case.
    fn one(&self, seed: u64, real: &[Vec<u8>]) {
        let mut draw = Draw(seed ^ self.case.wrapping_mul(0x2545_f491_4f6c_dd1d));
        let draw = &mut draw;
        let mut net = network(draw).into_bytes();
        match draw.below(6) {
            0 => net = mutated(draw, &net, real),
            1 if !real.is_empty() => {
                net = draw.of(real).clone();
                net = mutated(draw, &net, real);
            }
            _ => {}
        }
        if draw.one_in(4) {
            let ports = net.windows(7).filter(|w| *w == b".inputs" || *w == b".latch " || *w == b".output").count();
            let more = usize::from(draw.one_in(4));
            let mut run = run_text(draw, ports + more).into_bytes();
            if draw.one_in(4) {
                run = mutated(draw, &run, real);
            }
            return self.trace(&net, &run);
        }
        let mut script = script(draw).into_bytes();
        if draw.one_in(8) {
            script = mutated(draw, &script, real);
        }
        let free = draw.one_in(4);
        if draw.one_in(3) {
            return self.optimise_blif(draw, &script, free, real);
        }
        let options: &[&str] = if free { &["--free"] } else { &[] };
        self.optimise(draw, &net, &script, options);
    }
}

/// The network files of a folder that aren't large.
fn real_files(folder: &str) -> Vec<Vec<u8>> {
    let Ok(entries) = fs::read_dir(folder) else { return Vec::new() };
    let mut paths: Vec<PathBuf> = entries.filter_map(|e| e.ok().map(|e| e.path())).filter(|p| p.extension().is_some_and(|e| e == "mv" || e == "blif")).collect();
    paths.sort();
    paths.iter().filter_map(|p| fs::read(p).ok()).filter(|bytes| bytes.len() <= 20_000).collect()
}

fn main() {
    let words: Vec<String> = std::env::args().collect();
    let [_, program, folder, count, seed, rest @ ..] = &words[..] else { panic!("drawn PROGRAM FOLDER COUNT SEED [FIRST]") };
    let (count, seed): (u64, u64) = (count.parse().expect("a count"), seed.parse().expect("a seed"));
    let next = AtomicU64::new(rest.first().map_or(0, |first| first.parse().expect("a number")));
    let (found, counts, real) = (Mutex::new(Vec::new()), Mutex::new(BTreeMap::new()), real_files(folder));
    let at = std::env::temp_dir().join(format!("drawn-{}", std::process::id()));
    std::thread::scope(|scope| {
        for k in 0..THREADS {
            let (next, found, counts, real, folder) = (&next, &found, &counts, &real, at.join(k.to_string()));
            scope.spawn(move || {
                fs::create_dir_all(&folder).expect("a folder");
                loop {
                    let case = next.fetch_add(1, Ordering::Relaxed);
                    if case >= count {
                        break;
                    }
                    Trial { program, folder: folder.clone(), found, counts, case }.one(seed, real);
                }
            });
        }
    });
    let _ = fs::remove_dir_all(Path::new(&at));
    for (end, many) in counts.lock().unwrap().iter() {
        println!("{end}: {many}");
    }
    let found = found.lock().unwrap();
    for line in found.iter() {
        println!("FOUND {line}");
    }
    println!("{count} cases, {} found", found.len());
    std::process::exit(i32::from(!found.is_empty()));
}
