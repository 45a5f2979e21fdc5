// A plain Rust program, for comparison with `mvopt opt NET SCRIPT` on an empty script: it reads a network in BLIF-MV, unfolds
// its instances, makes one cover of each table and writes the network's text. Nothing is proved of it. It refuses what the
// format refuses, with the same first fault.
//     reader NET OUT       status 0; 1 for wrong words, 2 for a refused network, 4 or 5 where a file can't be read or written
use std::borrow::Cow;
use std::collections::{HashMap, HashSet};
use std::fmt;
use std::fs::File;
use std::io::{self, BufWriter, Read, Write};
use std::process::ExitCode;
use std::rc::Rc;

const MAX_FILE: usize = 16_777_216;
const MAX_WORD: usize = 1_024;
const MAX_BRACKETED: usize = 1_100_000;
const MAX_VALUES: usize = 1_024;
const MAX_JOINT_ROWS: usize = 1_024;
const MAX_COLUMNS: usize = 256;
const MAX_TABLE_LINES: usize = 65_536;
const MAX_MODELS: usize = 4_096;
const MAX_DEPTH: usize = 64;
const MAX_INSTANCES: usize = 100_000;
const MAX_NETS: usize = 200_000;
const MAX_NET_NAME: usize = 1_000;
const MAX_FLAT_LINES: usize = 1_000_000;
const MAX_FLAT_ENTRIES: usize = 8_000_000;

// ---------------------------------------------------------------------------------------------------------------- faults

/// The kinds of faults, numbered from 1. `FlatLimit` is written as Limit, too.
#[rustfmt::skip]
#[derive(Debug, Clone, Copy)]
enum Kind {
    BadByte = 1, LongWord, OpenBracket, TooLarge, UnknownCommand, OutsideModel, NoEnd, Missing, Extra, BadCount, // 1 to 10
    ValueNames, Redeclared, Columns, UnknownValue, BadEqual, DefaultTwice, ModelTwice, RootFault, Repeated, NoModel, // to 20
    Limit, NoSuchModel, Recursive, NoFormal, PortValues, PortOpen, NameClash, DrivenTwice, Undriven, Cycle, // to 30
    ResetReadsLatch, ResetTwice, NoLatch, JointWide, FlatLimit, BadName, NoTable, LatchValues, // to 38
}

/// A fault of a network file: those of bytes and lines have a line, those of the whole design have none.
#[derive(Debug)]
struct Fault {
    kind: Kind,
    line: Option<usize>,
    words: Vec<String>,
}

impl Fault {
    fn at(kind: Kind, line: usize) -> Fault {
        Fault { kind, line: Some(line), words: Vec::new() }
    }

    fn of(kind: Kind) -> Fault {
        Fault { kind, line: None, words: Vec::new() }
    }

    fn word(mut self, word: &[u8]) -> Fault {
        self.words.push(String::from_utf8_lossy(word).into_owned());
        self
    }

    fn number(mut self, number: impl fmt::Display) -> Fault {
        self.words.push(number.to_string());
        self
    }

    fn limit(line: usize, which: &str, number: u64) -> Fault {
        Fault::at(Kind::Limit, line).number(which).number(number)
    }

    fn flat_limit(which: &str, number: usize) -> Fault {
        Fault::of(Kind::FlatLimit).number(which).number(number)
    }
}

impl fmt::Display for Fault {
    fn fmt(&self, f: &mut fmt::Formatter) -> fmt::Result {
        let name = format!("{:?}", self.kind);
        write!(f, "# fault network {} {}", self.kind as u8, name.trim_start_matches("Flat"))?;
        if let Some(line) = self.line {
            write!(f, " line {line}")?;
        }
        self.words.iter().try_for_each(|word| write!(f, " {word}"))
    }
}

// ----------------------------------------------------------------------------------------------------------------- lines

type Name<'a> = &'a [u8];

/// A word of a line. A bracketed word has its blanks dropped, so it is a text of its own; it is never a name.
enum Word<'a> {
    Plain(Name<'a>),
    Bracketed(Vec<u8>),
}

impl Word<'_> {
    fn text(&self) -> &[u8] {
        match self {
            Word::Plain(text) => text,
            Word::Bracketed(text) => text,
        }
    }
}

struct Line<'a> {
    number: usize,
    words: Vec<Word<'a>>,
}

fn is_blank(b: u8) -> bool {
    matches!(b, b' ' | b'\t' | b'\r')
}

fn is_word_byte(b: u8) -> bool {
    matches!(b, 0x21..=0x7e)
}

fn is_bad(b: u8) -> bool {
    !is_word_byte(b) && !is_blank(b)
}

/// A bracketed word whose closing bracket is still to come; it may go on in a joined line.
struct Open {
    text: Vec<u8>,
    close: u8,
}

#[derive(Default)]
struct Lexer<'a> {
    lines: Vec<Line<'a>>,
    /// The words of a line that isn't complete, and the number of its first physical line, 0 where none has begun.
    words: Vec<Word<'a>>,
    first: usize,
    open: Option<Open>,
}

fn lex(bytes: &[u8]) -> Result<Vec<Line<'_>>, Fault> {
    let too_large = bytes.len() > MAX_FILE;
    let bytes = &bytes[..bytes.len().min(MAX_FILE)];
    let mut lexer = Lexer::default();
    let mut number = 0;
    let mut pieces = bytes.split(|&b| b == b'\n').peekable();
    while let Some(piece) = pieces.next() {
        number += 1;
        let cut = too_large && pieces.peek().is_none();
        lexer.physical_line(piece, number, cut)?;
    }
    if too_large {
        return Err(Fault::at(Kind::TooLarge, number));
    }
    if lexer.open.is_some() {
        return Err(Fault::at(Kind::OpenBracket, number));
    }
    lexer.end_line();
    Ok(lexer.lines)
}

impl<'a> Lexer<'a> {
    /// Takes a physical line. Where it is cut off at the limit of the file its end says nothing.
    fn physical_line(&mut self, piece: &'a [u8], number: usize, cut: bool) -> Result<(), Fault> {
        let line = piece.strip_suffix(b"\r").unwrap_or(piece);
        let comment = line.iter().position(|&b| b == b'#');
        let (code, joined) = match (comment, line.strip_suffix(b"\\")) {
            (Some(at), _) => (&line[..at], false),
            (None, Some(code)) => (code, true),
            (None, None) => (line, false),
        };
        if self.first == 0 {
            self.first = number;
        }
        let settled = !cut || code.len() < piece.len();
        self.scan(code, number, settled)?;
        if joined || (cut && comment.is_none()) {
            return Ok(());
        }
        if self.open.is_some() {
            return Err(Fault::at(Kind::OpenBracket, number));
        }
        self.end_line();
        Ok(())
    }

    fn end_line(&mut self) {
        if !self.words.is_empty() {
            self.lines.push(Line { number: self.first, words: std::mem::take(&mut self.words) });
        }
        self.first = 0;
    }

    /// Cuts a physical line without its comment into words.
    fn scan(&mut self, code: &'a [u8], number: usize, settled: bool) -> Result<(), Fault> {
        let mut at = match self.open.take() {
            Some(open) => self.bracketed(open, code, 0, number)?,
            None => 0,
        };
        while at < code.len() {
            if is_blank(code[at]) {
                at += 1;
                continue;
            }
            let bangs = code[at..].iter().take_while(|&&b| b == b'!').count();
            let close = match code.get(at + bangs) {
                Some(b'(') => Some(b')'),
                Some(b'{') => Some(b'}'),
                _ => None,
            };
            at = match close {
                Some(close) => self.bracketed(Open { text: Vec::new(), close }, code, at, number)?,
                None => self.plain(code, at, bangs, number, settled)?,
            };
        }
        Ok(())
    }

    /// Takes the plain word at this place, which begins with so many `!`, and answers the place behind it.
    fn plain(&mut self, code: &'a [u8], at: usize, bangs: usize, number: usize, settled: bool) -> Result<usize, Fault> {
        let rest = &code[at..];
        let length = rest.iter().position(|&b| !is_word_byte(b)).unwrap_or(rest.len());
        let next = rest.get(length).copied().filter(|&b| is_bad(b));
        let long = || Fault::at(Kind::LongWord, number);
        if bangs > MAX_BRACKETED {
            return Err(long());
        }
        if bangs > MAX_WORD {
            // a run of `!` that may become a bracketed word is told by what follows it
            if length == bangs && next.is_none() && length == rest.len() && !settled {
                return Ok(code.len());
            }
            return Err(if length == bangs { next.map_or_else(long, |b| bad_byte(b, number)) } else { long() });
        }
        if length > MAX_WORD {
            return Err(long_word(rest, MAX_WORD, number));
        }
        match next {
            Some(b) => Err(bad_byte(b, number)),
            None => {
                self.words.push(Word::Plain(&rest[..length]));
                Ok(at + length)
            }
        }
    }

    /// Goes on with a bracketed word from this place, and answers the place behind what was taken.
    fn bracketed(&mut self, mut open: Open, code: &[u8], from: usize, number: usize) -> Result<usize, Fault> {
        for (at, &b) in code.iter().enumerate().skip(from) {
            if is_blank(b) {
                continue;
            }
            if is_bad(b) {
                return Err(bad_byte(b, number));
            }
            if open.text.len() == MAX_BRACKETED {
                return Err(long_word(code, at, number));
            }
            open.text.push(b);
            if b == open.close {
                self.words.push(Word::Bracketed(open.text));
                return Ok(at + 1);
            }
        }
        self.open = Some(open);
        Ok(code.len())
    }
}

fn bad_byte(byte: u8, line: usize) -> Fault {
    Fault::at(Kind::BadByte, line).number(byte)
}

/// The fault where the byte at this place makes a word too long. Of a `\` only what follows it tells so, which may be bad itself.
fn long_word(code: &[u8], at: usize, line: usize) -> Fault {
    let next = match code.get(at + 1) {
        Some(b'\r') => code.get(at + 2),
        next => next,
    };
    match next {
        Some(&b) if code[at] == b'\\' && is_bad(b) => bad_byte(b, line),
        _ => Fault::at(Kind::LongWord, line),
    }
}

// ----------------------------------------------------------------------------------------------------------- names, values

fn is_net_name(text: &[u8]) -> bool {
    let begin = text.iter().find(|&&b| b != b'!');
    text != b"->"
        && !text.starts_with(b".")
        && !matches!(begin, Some(b'(' | b'{'))
        && !text.ends_with(b"\\")
        && !text.contains(&b',')
}

fn is_model_name(text: &[u8]) -> bool {
    is_net_name(text) && !text.contains(&b'=')
}

fn is_value_name(text: &[u8]) -> bool {
    is_net_name(text)
        && text != b"-"
        && !matches!(text.first(), Some(b'!' | b'='))
        && !text.iter().any(|b| matches!(b, b'(' | b')' | b'{' | b'}'))
}

/// A set of values, which are numbered from 0. One with values from 64 on stands in memory to the end of the run.
#[derive(Debug, Clone, Copy, PartialEq, Eq, Hash)]
enum ValueSet {
    Few(u64),
    Many(&'static [u64; 16]),
}

impl ValueSet {
    const EMPTY: ValueSet = ValueSet::Few(0);

    fn of(words: [u64; 16]) -> ValueSet {
        if words[1..].iter().all(|&word| word == 0) {
            return ValueSet::Few(words[0]);
        }
        ValueSet::Many(Box::leak(Box::new(words)))
    }

    fn words(self) -> [u64; 16] {
        match self {
            ValueSet::Few(bits) => {
                let mut words = [0; 16];
                words[0] = bits;
                words
            }
            ValueSet::Many(words) => *words,
        }
    }

    fn one(value: usize) -> ValueSet {
        if value < 64 {
            return ValueSet::Few(1 << value);
        }
        let mut words = [0; 16];
        words[value / 64] = 1 << (value % 64);
        ValueSet::of(words)
    }

    fn full(count: usize) -> ValueSet {
        if count < 64 {
            return ValueSet::Few((1 << count) - 1);
        }
        let mut words = [0; 16];
        for (place, word) in words.iter_mut().enumerate() {
            let left = count.saturating_sub(64 * place);
            *word = if left >= 64 { u64::MAX } else { (1 << left) - 1 };
        }
        ValueSet::of(words)
    }

    /// The values from the first to the last, both of them in it.
    fn range(first: usize, last: usize) -> ValueSet {
        ValueSet::full(last + 1).minus(ValueSet::full(first))
    }

    fn by_words(self, other: ValueSet, both: impl Fn(u64, u64) -> u64) -> ValueSet {
        if let (ValueSet::Few(a), ValueSet::Few(b)) = (self, other) {
            return ValueSet::Few(both(a, b));
        }
        let (a, b) = (self.words(), other.words());
        ValueSet::of(std::array::from_fn(|place| both(a[place], b[place])))
    }

    fn meet(self, other: ValueSet) -> ValueSet {
        self.by_words(other, |a, b| a & b)
    }

    fn join(self, other: ValueSet) -> ValueSet {
        self.by_words(other, |a, b| a | b)
    }

    fn minus(self, other: ValueSet) -> ValueSet {
        self.by_words(other, |a, b| a & !b)
    }

    /// The value of a set of just one.
    fn single(self) -> Option<usize> {
        if let ValueSet::Few(bits) = self {
            return bits.is_power_of_two().then(|| bits.trailing_zeros() as usize);
        }
        let mut values = self.values();
        let first = values.next()?;
        values.next().is_none().then_some(first)
    }

    /// The values in ascending order.
    fn values(self) -> impl Iterator<Item = usize> {
        let mut rest = self.words();
        let mut place = 0;
        std::iter::from_fn(move || {
            while place < 16 && rest[place] == 0 {
                place += 1;
            }
            let word = rest.get_mut(place)?;
            let value = 64 * place + word.trailing_zeros() as usize;
            *word &= *word - 1;
            Some(value)
        })
    }
}

/// The values of a net: how many, and their names, none where they are the numbers from 0.
#[derive(Debug)]
struct Values<'a> {
    count: usize,
    names: Vec<Name<'a>>,
    places: HashMap<Name<'a>, usize>,
}

impl PartialEq for Values<'_> {
    fn eq(&self, other: &Self) -> bool {
        self.count == other.count && self.names == other.names
    }
}

impl<'a> Values<'a> {
    fn numbered(count: usize) -> Values<'a> {
        Values { count, names: Vec::new(), places: HashMap::new() }
    }

    fn named(names: Vec<Name<'a>>) -> Values<'a> {
        let numbers = names.iter().enumerate().all(|(place, &name)| number_below(name, MAX_VALUES) == Some(place));
        if numbers {
            return Values::numbered(names.len());
        }
        let places = names.iter().enumerate().map(|(place, &name)| (name, place)).collect();
        Values { count: names.len(), names, places }
    }

    fn find(&self, name: &[u8]) -> Option<usize> {
        if self.names.is_empty() {
            number_below(name, self.count)
        } else {
            self.places.get(name).copied()
        }
    }

    fn full(&self) -> ValueSet {
        ValueSet::full(self.count)
    }
}

/// The number that is written so, with no leading zero.
fn number_below(text: &[u8], limit: usize) -> Option<usize> {
    let zero_led = text.len() > 1 && text[0] == b'0';
    if text.is_empty() || text.len() > 4 || zero_led || !text.iter().all(u8::is_ascii_digit) {
        return None;
    }
    let number = text.iter().fold(0, |n, b| n * 10 + usize::from(b - b'0'));
    (number < limit).then_some(number)
}

enum BadEntry<'w> {
    Unknown(&'w [u8]),
    Equal(&'w [u8]),
}

/// The set that an entry without `=` says.
fn read_set<'w>(word: &'w [u8], values: &Values) -> Result<ValueSet, BadEntry<'w>> {
    if word == b"-" {
        return Ok(values.full());
    }
    if let Some(value) = values.find(word) {
        return Ok(ValueSet::one(value));
    }
    let bangs = word.iter().take_while(|&&b| b == b'!').count();
    let rest = &word[bangs..];
    let set = match rest {
        [b'=', name @ ..] => return Err(BadEntry::Equal(name)),
        [b'(' | b'{', list @ .., _] => read_list(list, values)?,
        b"-" => values.full(),
        _ => values.find(rest).map(ValueSet::one).ok_or(BadEntry::Unknown(word))?,
    };
    Ok(if bangs % 2 == 1 { values.full().minus(set) } else { set })
}

fn read_list<'w>(list: &'w [u8], values: &Values) -> Result<ValueSet, BadEntry<'w>> {
    list.split(|&b| b == b',').try_fold(ValueSet::EMPTY, |set, item| {
        let more = match values.find(item) {
            Some(value) => Some(ValueSet::one(value)),
            None => read_range(item, values),
        };
        Ok(set.join(more.ok_or(BadEntry::Unknown(item))?))
    })
}

/// A range, cut at the first hyphen that leaves a value's name on both sides.
fn read_range(item: &[u8], values: &Values) -> Option<ValueSet> {
    if item.len() > 2 * MAX_WORD + 1 {
        return None;
    }
    let mut hyphens = (0..item.len()).filter(|&at| item[at] == b'-');
    let (first, last) = hyphens.find_map(|at| Some((values.find(&item[..at])?, values.find(&item[at + 1..])?)))?;
    (first <= last).then(|| ValueSet::range(first, last))
}

// ---------------------------------------------------------------------------------------------------------------- design

/// What a file says. Nets of a model have numbers in it: its inputs come first, then its outputs, then all others in the
/// order in which its commands name them.
struct Design<'a> {
    models: Vec<Model<'a>>,
    by_name: HashMap<Name<'a>, usize>,
    root: usize,
}

struct Model<'a> {
    name: Name<'a>,
    nets: Vec<Net<'a>>,
    by_name: HashMap<Name<'a>, usize>,
    /// How many of the nets are inputs, and how many are inputs or outputs.
    inputs: usize,
    formals: usize,
    outputs: Vec<usize>,
    commands: Vec<Command<'a>>,
}

struct Net<'a> {
    name: Name<'a>,
    values: Rc<Values<'a>>,
}

enum Command<'a> {
    Table(Table),
    Reset(Table),
    Latch { input: usize, output: usize },
    Part(Part<'a>),
}

impl Command<'_> {
    /// The nets that it drives.
    fn driven(&self) -> &[usize] {
        match self {
            Command::Table(table) => &table.outputs,
            Command::Latch { output, .. } => std::slice::from_ref(output),
            Command::Reset(_) | Command::Part(_) => &[],
        }
    }
}

struct Table {
    inputs: Vec<usize>,
    outputs: Vec<usize>,
    rows: Vec<Row>,
    default: Option<Vec<Entry>>,
}

/// A row: the sets of the input columns that aren't full, by their places, and an entry for each output.
struct Row {
    ins: Vec<(usize, ValueSet)>,
    outs: Vec<Entry>,
}

#[derive(Clone, Copy)]
enum Entry {
    Set(ValueSet),
    /// The value of the input column at this place.
    Same(usize),
}

struct Part<'a> {
    model: Name<'a>,
    instance: Name<'a>,
    binds: Vec<Bind<'a>>,
}

struct Bind<'a> {
    formal: Name<'a>,
    actual: usize,
}

impl<'a> Model<'a> {
    fn parts(&self) -> impl Iterator<Item = &Part<'a>> {
        self.commands.iter().filter_map(|command| match command {
            Command::Part(part) => Some(part),
            _ => None,
        })
    }

    fn formal(&self, name: &[u8]) -> Option<usize> {
        self.by_name.get(name).copied().filter(|&net| net < self.formals)
    }
}

// ---------------------------------------------------------------------------------------------------------------- parser

/// The commands of a model that isn't ended, by names: values are read at its end.
struct OpenModel<'l, 'a> {
    name: Name<'a>,
    line: usize,
    inputs: NameList<'a>,
    outputs: NameList<'a>,
    values: HashMap<Name<'a>, Rc<Values<'a>>>,
    commands: Vec<OpenCommand<'l, 'a>>,
    instances: HashSet<Name<'a>>,
    /// Whether the last command is a table that still takes rows.
    table_open: bool,
}

#[derive(Default)]
struct NameList<'a> {
    list: Vec<Name<'a>>,
    set: HashSet<Name<'a>>,
}

enum OpenCommand<'l, 'a> {
    Table(OpenTable<'l, 'a>),
    Latch { line: usize, input: Name<'a>, output: Name<'a> },
    Part { model: Name<'a>, instance: Name<'a>, binds: Vec<(Name<'a>, Name<'a>)> },
}

struct OpenTable<'l, 'a> {
    reset: bool,
    inputs: Vec<Name<'a>>,
    outputs: Vec<Name<'a>>,
    rows: Vec<&'l Line<'a>>,
    /// The default, and how many rows stand before it.
    default: Option<(&'l Line<'a>, usize)>,
}

struct Parser<'l, 'a> {
    models: Vec<Model<'a>>,
    by_name: HashMap<Name<'a>, usize>,
    root: Option<(Name<'a>, usize)>,
    open: Option<OpenModel<'l, 'a>>,
    binary: Rc<Values<'a>>,
}

fn parse<'a>(lines: &[Line<'a>]) -> Result<Design<'a>, Fault> {
    let binary = Rc::new(Values::numbered(2));
    let mut parser = Parser { models: Vec::new(), by_name: HashMap::new(), root: None, open: None, binary };
    for line in lines {
        parser.line(line)?;
    }
    parser.finish()
}

fn missing(line: &Line) -> Fault {
    Fault::at(Kind::Missing, line.number).word(line.words[0].text())
}

fn extra(line: &Line) -> Fault {
    Fault::at(Kind::Extra, line.number).word(line.words[0].text())
}

fn lawful<'a>(word: &Word<'a>, is_lawful: fn(&[u8]) -> bool, line: &Line) -> Result<Name<'a>, Fault> {
    match word {
        Word::Plain(text) if is_lawful(text) => Ok(text),
        _ => Err(Fault::at(Kind::BadName, line.number).word(word.text())),
    }
}

/// The words behind a command that takes just so many, each a lawful name; the next is Extra.
fn names<'a, const N: usize>(line: &Line<'a>, is_lawful: fn(&[u8]) -> bool) -> Result<[Name<'a>; N], Fault> {
    let mut names: [Name<'a>; N] = [b""; N];
    for (place, name) in names.iter_mut().enumerate() {
        *name = lawful(line.words.get(place + 1).ok_or_else(|| missing(line))?, is_lawful, line)?;
    }
    Ok(names)
}

fn no_more(line: &Line, count: usize) -> Result<(), Fault> {
    if line.words.len() > count { Err(extra(line)) } else { Ok(()) }
}

impl<'l, 'a> Parser<'l, 'a> {
    fn line(&mut self, line: &'l Line<'a>) -> Result<(), Fault> {
        let command = line.words[0].text();
        if !command.starts_with(b".") {
            return self.row(line);
        }
        if matches!(command, b".default" | b".def") {
            return self.default(line);
        }
        if let Some(model) = &mut self.open {
            model.table_open = false;
        }
        match command {
            b".model" => self.model(line),
            b".root" => self.root(line),
            b".inputs" => self.open_model(line)?.inputs.add(line),
            b".outputs" => self.open_model(line)?.outputs.add(line),
            b".mv" => self.open_model(line)?.declare(line),
            b".table" | b".names" => self.open_model(line)?.table(line, false),
            b".reset" | b".r" => self.open_model(line)?.table(line, true),
            b".latch" => self.open_model(line)?.latch(line),
            b".subckt" => self.open_model(line)?.part(line),
            b".end" => self.end(line),
            _ => Err(Fault::at(Kind::UnknownCommand, line.number).word(command)),
        }
    }

    fn open_model(&mut self, line: &Line) -> Result<&mut OpenModel<'l, 'a>, Fault> {
        self.open.as_mut().ok_or_else(|| Fault::at(Kind::OutsideModel, line.number))
    }

    fn open_table(&mut self, line: &Line) -> Result<&mut OpenTable<'l, 'a>, Fault> {
        let model = self.open_model(line)?;
        match model.commands.last_mut() {
            Some(OpenCommand::Table(table)) if model.table_open => Ok(table),
            _ => Err(Fault::at(Kind::NoTable, line.number)),
        }
    }

    fn model(&mut self, line: &Line<'a>) -> Result<(), Fault> {
        if let Some(model) = &self.open {
            return Err(Fault::at(Kind::NoEnd, model.line));
        }
        if self.models.len() == MAX_MODELS {
            return Err(Fault::limit(line.number, "Models", MAX_MODELS as u64 + 1));
        }
        let [name] = names(line, is_model_name)?;
        if self.by_name.contains_key(name) {
            return Err(Fault::at(Kind::ModelTwice, line.number).word(name));
        }
        no_more(line, 2)?;
        self.open = Some(OpenModel {
            name,
            line: line.number,
            inputs: NameList::default(),
            outputs: NameList::default(),
            values: HashMap::new(),
            commands: Vec::new(),
            instances: HashSet::new(),
            table_open: false,
        });
        Ok(())
    }

    fn root(&mut self, line: &Line<'a>) -> Result<(), Fault> {
        let [name] = names(line, is_model_name)?;
        if self.root.is_some() {
            return Err(Fault::at(Kind::RootFault, line.number).word(name));
        }
        no_more(line, 2)?;
        self.root = Some((name, line.number));
        Ok(())
    }

    fn row(&mut self, line: &'l Line<'a>) -> Result<(), Fault> {
        let table = self.open_table(line)?;
        if table.rows.len() == MAX_TABLE_LINES {
            return Err(Fault::limit(line.number, "TableLines", MAX_TABLE_LINES as u64 + 1));
        }
        let wanted = table.inputs.len() + table.outputs.len();
        if line.words.len() != wanted {
            return Err(Fault::at(Kind::Columns, line.number).number(wanted).number(line.words.len()));
        }
        table.rows.push(line);
        Ok(())
    }

    fn default(&mut self, line: &'l Line<'a>) -> Result<(), Fault> {
        let table = self.open_table(line)?;
        if table.default.is_some() {
            return Err(Fault::at(Kind::DefaultTwice, line.number));
        }
        if line.words.len() <= table.outputs.len() {
            return Err(missing(line));
        }
        no_more(line, table.outputs.len() + 1)?;
        table.default = Some((line, table.rows.len()));
        Ok(())
    }

    fn end(&mut self, line: &Line) -> Result<(), Fault> {
        self.open_model(line)?;
        no_more(line, 1)?;
        if let Some(open) = self.open.take() {
            let model = open.close(&self.binary)?;
            self.by_name.insert(model.name, self.models.len());
            self.models.push(model);
        }
        Ok(())
    }

    fn finish(self) -> Result<Design<'a>, Fault> {
        if let Some(model) = self.open {
            return Err(Fault::at(Kind::NoEnd, model.line));
        }
        if self.models.is_empty() {
            return Err(Fault::at(Kind::NoModel, 1));
        }
        let root = match self.root {
            None => 0,
            Some((name, line)) => match self.by_name.get(name) {
                Some(&root) => root,
                None => return Err(Fault::at(Kind::RootFault, line).word(name)),
            },
        };
        Ok(Design { models: self.models, by_name: self.by_name, root })
    }
}

impl<'a> NameList<'a> {
    fn add(&mut self, line: &Line<'a>) -> Result<(), Fault> {
        for word in &line.words[1..] {
            let name = lawful(word, is_net_name, line)?;
            if !self.set.insert(name) {
                return Err(Fault::at(Kind::Repeated, line.number).word(name));
            }
            self.list.push(name);
        }
        Ok(())
    }
}

/// A piece of a `.mv` line, in which each comma is a word of its own.
enum Piece<'a> {
    Comma,
    Word(Word<'a>),
}

fn pieces<'a>(line: &Line<'a>) -> Vec<Piece<'a>> {
    let mut pieces = Vec::new();
    for word in &line.words[1..] {
        match word {
            Word::Plain(text) => {
                for (place, piece) in text.split(|&b| b == b',').enumerate() {
                    if place > 0 {
                        pieces.push(Piece::Comma);
                    }
                    if !piece.is_empty() {
                        pieces.push(Piece::Word(Word::Plain(piece)));
                    }
                }
            }
            // its first piece begins with the bracket and is no name, so no more is asked of it
            Word::Bracketed(text) => {
                let first = text.split(|&b| b == b',').next().unwrap_or_default();
                pieces.push(Piece::Word(Word::Bracketed(first.to_vec())));
            }
        }
    }
    pieces
}

impl<'l, 'a> OpenModel<'l, 'a> {
    fn declare(&mut self, line: &Line<'a>) -> Result<(), Fault> {
        let mut pieces = pieces(line).into_iter();
        let mut nets = Vec::new();
        let mut name_wanted = true;
        let written = loop {
            match pieces.next() {
                None => return Err(missing(line)),
                Some(Piece::Comma) if name_wanted => return Err(missing(line)),
                Some(Piece::Comma) => name_wanted = true,
                Some(Piece::Word(word)) => {
                    if !name_wanted && word.text().iter().all(u8::is_ascii_digit) {
                        break word;
                    }
                    nets.push(lawful(&word, is_net_name, line)?);
                    name_wanted = false;
                }
            }
        };
        let count = read_count(written.text(), line)?;
        let mut names = NameList::default();
        for piece in pieces {
            if let Piece::Word(word) = piece {
                let name = lawful(&word, is_value_name, line)?;
                if !names.set.insert(name) {
                    return Err(Fault::at(Kind::Repeated, line.number).word(name));
                }
                names.list.push(name);
            }
        }
        if !names.list.is_empty() && names.list.len() != count {
            return Err(Fault::at(Kind::ValueNames, line.number).number(count).number(names.list.len()));
        }
        let values = if names.list.is_empty() { Values::numbered(count) } else { Values::named(names.list) };
        let values = Rc::new(values);
        for net in nets {
            let declared = self.values.entry(net).or_insert_with(|| Rc::clone(&values));
            if *declared != values {
                return Err(Fault::at(Kind::Redeclared, line.number).word(net));
            }
        }
        Ok(())
    }

    fn table(&mut self, line: &Line<'a>, reset: bool) -> Result<(), Fault> {
        let mut inputs = Vec::new();
        let mut outputs = Vec::new();
        let mut arrow = false;
        for word in &line.words[1..] {
            if reset && outputs.len() == 1 {
                return Err(extra(line));
            }
            if !arrow && word.text() == b"->" {
                arrow = true;
                continue;
            }
            if inputs.len() + outputs.len() == MAX_COLUMNS {
                return Err(Fault::limit(line.number, "Columns", MAX_COLUMNS as u64 + 1));
            }
            let name = lawful(word, is_net_name, line)?;
            if !arrow {
                inputs.push(name);
            } else if outputs.contains(&name) {
                return Err(Fault::at(Kind::Repeated, line.number).word(name));
            } else {
                outputs.push(name);
            }
        }
        if !arrow {
            outputs.extend(inputs.pop());
        }
        if outputs.is_empty() {
            return Err(missing(line));
        }
        let table = OpenTable { reset, inputs, outputs, rows: Vec::new(), default: None };
        self.commands.push(OpenCommand::Table(table));
        self.table_open = true;
        Ok(())
    }

    fn latch(&mut self, line: &Line<'a>) -> Result<(), Fault> {
        let [input, output] = names(line, is_net_name)?;
        no_more(line, 3)?;
        self.commands.push(OpenCommand::Latch { line: line.number, input, output });
        Ok(())
    }

    fn part(&mut self, line: &Line<'a>) -> Result<(), Fault> {
        let [model, instance] = names(line, is_model_name)?;
        if !self.instances.insert(instance) {
            return Err(Fault::at(Kind::Repeated, line.number).word(instance));
        }
        let mut binds = Vec::new();
        let mut formals = HashSet::new();
        for word in &line.words[3..] {
            let (formal, actual) = binding(word).ok_or_else(|| missing(line))?;
            let formal = lawful(&formal, is_net_name, line)?;
            if !formals.insert(formal) {
                return Err(Fault::at(Kind::Repeated, line.number).word(formal));
            }
            binds.push((formal, lawful(&actual, is_net_name, line)?));
        }
        self.commands.push(OpenCommand::Part { model, instance, binds });
        Ok(())
    }

    /// Ends the model: gives its nets numbers and reads the values of its rows, line by line.
    fn close(self, binary: &Rc<Values<'a>>) -> Result<Model<'a>, Fault> {
        let mut nets = NetList { nets: Vec::new(), by_name: HashMap::new(), values: self.values, binary };
        let inputs = self.inputs.list.len();
        nets.all(&self.inputs.list);
        let outputs = nets.all(&self.outputs.list);
        let formals = nets.nets.len();
        let mut commands = Vec::with_capacity(self.commands.len());
        for command in self.commands {
            commands.push(match command {
                OpenCommand::Table(open) => {
                    let table = close_table(&open, &mut nets)?;
                    if open.reset { Command::Reset(table) } else { Command::Table(table) }
                }
                OpenCommand::Latch { line, input, output } => {
                    let ends = (nets.number(input), nets.number(output));
                    if nets.values(ends.0).count != nets.values(ends.1).count {
                        return Err(Fault::at(Kind::LatchValues, line).word(input).word(output));
                    }
                    Command::Latch { input: ends.0, output: ends.1 }
                }
                OpenCommand::Part { model, instance, binds } => {
                    let bind = |(formal, actual)| Bind { formal, actual: nets.number(actual) };
                    Command::Part(Part { model, instance, binds: binds.into_iter().map(bind).collect() })
                }
            });
        }
        Ok(Model { name: self.name, nets: nets.nets, by_name: nets.by_name, inputs, formals, outputs, commands })
    }
}

/// Both sides of the first `=` of a word.
fn binding<'a>(word: &Word<'a>) -> Option<(Word<'a>, Word<'a>)> {
    let at = word.text().iter().position(|&b| b == b'=')?;
    if at == 0 || at + 1 == word.text().len() {
        return None;
    }
    Some(match word {
        Word::Plain(text) => (Word::Plain(&text[..at]), Word::Plain(&text[at + 1..])),
        Word::Bracketed(text) => (Word::Bracketed(text[..at].to_vec()), Word::Bracketed(text[at + 1..].to_vec())),
    })
}

fn read_count(text: &[u8], line: &Line) -> Result<usize, Fault> {
    let count = text.iter().fold(0u64, |n, b| n.saturating_mul(10).saturating_add(u64::from(b - b'0')));
    if count == 0 {
        return Err(Fault::at(Kind::BadCount, line.number).word(text));
    }
    if count > MAX_VALUES as u64 {
        return Err(Fault::limit(line.number, "Values", count));
    }
    Ok(count as usize)
}

/// The nets of a model, numbered in the order in which they are asked for.
struct NetList<'b, 'a> {
    nets: Vec<Net<'a>>,
    by_name: HashMap<Name<'a>, usize>,
    values: HashMap<Name<'a>, Rc<Values<'a>>>,
    binary: &'b Rc<Values<'a>>,
}

impl<'a> NetList<'_, 'a> {
    fn number(&mut self, name: Name<'a>) -> usize {
        *self.by_name.entry(name).or_insert_with(|| {
            let values = Rc::clone(self.values.get(name).unwrap_or(self.binary));
            self.nets.push(Net { name, values });
            self.nets.len() - 1
        })
    }

    fn all(&mut self, names: &[Name<'a>]) -> Vec<usize> {
        names.iter().map(|name| self.number(name)).collect()
    }

    fn values(&self, net: usize) -> &Values<'a> {
        &self.nets[net].values
    }
}

fn close_table<'a>(open: &OpenTable<'_, 'a>, nets: &mut NetList<'_, 'a>) -> Result<Table, Fault> {
    let inputs = nets.all(&open.inputs);
    let outputs = nets.all(&open.outputs);
    let mut table = Table { inputs, outputs, rows: Vec::with_capacity(open.rows.len()), default: None };
    let before = open.default.map_or(open.rows.len(), |(_, before)| before);
    for line in &open.rows[..before] {
        let row = read_row(line, open, &table, nets)?;
        table.rows.push(row);
    }
    if let Some((line, _)) = open.default {
        table.default = Some(read_outputs(line, &line.words[1..], open, &table, nets)?);
    }
    for line in &open.rows[before..] {
        let row = read_row(line, open, &table, nets)?;
        table.rows.push(row);
    }
    Ok(table)
}

fn read_row(line: &Line, open: &OpenTable, table: &Table, nets: &NetList) -> Result<Row, Fault> {
    let (entries, outs) = line.words.split_at(table.inputs.len());
    let mut ins = Vec::new();
    for (place, word) in entries.iter().enumerate() {
        let values = nets.values(table.inputs[place]);
        let set = read_set(word.text(), values).map_err(|bad| bad_entry(bad, line))?;
        if set != values.full() {
            ins.push((place, set));
        }
    }
    Ok(Row { ins, outs: read_outputs(line, outs, open, table, nets)? })
}

fn read_outputs(line: &Line, words: &[Word], open: &OpenTable, table: &Table, nets: &NetList) -> Result<Vec<Entry>, Fault> {
    let read = |(word, &output): (&Word, &usize)| {
        let values = nets.values(output);
        if let [b'=', name @ ..] = word.text() {
            let place = open.inputs.iter().position(|&input| input == name);
            let place = place.filter(|&place| nets.values(table.inputs[place]).count == values.count);
            return place.map(Entry::Same).ok_or_else(|| bad_entry(BadEntry::Equal(name), line));
        }
        read_set(word.text(), values).map(Entry::Set).map_err(|bad| bad_entry(bad, line))
    };
    words.iter().zip(&table.outputs).map(read).collect()
}

fn bad_entry(bad: BadEntry, line: &Line) -> Fault {
    match bad {
        BadEntry::Unknown(word) => Fault::at(Kind::UnknownValue, line.number).word(word),
        BadEntry::Equal(name) => Fault::at(Kind::BadEqual, line.number).word(name),
    }
}

// --------------------------------------------------------------------------------------------------------------- network

/// A literal of a cube, whose set is neither empty nor full. The nets of a cube ascend.
#[derive(Clone, PartialEq, Eq, Hash)]
struct Literal {
    net: usize,
    set: ValueSet,
}

type Cube = Vec<Literal>;

#[derive(Clone, PartialEq, Eq, Hash)]
struct CoverLine {
    cube: Cube,
    out: ValueSet,
}

#[derive(Default)]
struct Cover {
    lines: Vec<CoverLine>,
    default: Option<ValueSet>,
}

impl Cover {
    fn literals(&self) -> usize {
        self.lines.iter().map(|line| line.cube.len()).sum()
    }
}

#[derive(Clone, Copy, PartialEq, Eq)]
enum Driver {
    Input,
    Latch,
    Table,
    Reset,
}

/// A net of the network. A reset net bears the name of its latch.
struct FlatNet<'a> {
    name: Cow<'a, [u8]>,
    values: Rc<Values<'a>>,
    driver: Driver,
    cover: Cover,
}

struct Network<'a> {
    root: Name<'a>,
    inputs: Vec<usize>,
    outputs: Vec<usize>,
    /// The input and the output of each latch.
    latches: Vec<(usize, usize)>,
    /// The nets by their numbers, with gaps where a mark or a choice net wasn't needed.
    nets: Vec<Option<FlatNet<'a>>>,
}

// -------------------------------------------------------------------------------------------------------------- unfolding

struct Instance<'d, 'a> {
    model: &'d Model<'a>,
    /// The instance round it and the command there that makes it; none for the root.
    round: Option<(usize, &'d Part<'a>)>,
    /// The home of each net of the model.
    homes: Vec<usize>,
}

/// The instances in unfolding order.
struct Tree<'d, 'a> {
    design: &'d Design<'a>,
    instances: Vec<Instance<'d, 'a>>,
    /// How many instances were met, the root not counted.
    met: usize,
}

impl<'d, 'a> Tree<'d, 'a> {
    fn unfold(design: &'d Design<'a>) -> Result<Self, Fault> {
        let mut tree = Tree { design, instances: Vec::new(), met: 0 };
        tree.visit(design.root, None, &mut vec![design.root])?;
        Ok(tree)
    }

    /// Adds an instance and those inside it; `path` has its model and those round it.
    fn visit(&mut self, model: usize, round: Option<(usize, &'d Part<'a>)>, path: &mut Vec<usize>) -> Result<(), Fault> {
        let at = self.instances.len();
        let model = &self.design.models[model];
        self.instances.push(Instance { model, round, homes: Vec::new() });
        let mut inside = Vec::new();
        for part in model.parts() {
            inside.push((self.check(at, part, path)?, part));
        }
        for (model, part) in inside {
            path.push(model);
            self.visit(model, Some((at, part)), path)?;
            path.pop();
        }
        Ok(())
    }

    /// Checks a part of an instance, and answers its model.
    fn check(&mut self, at: usize, part: &Part<'a>, path: &[usize]) -> Result<usize, Fault> {
        let Some(&number) = self.design.by_name.get(part.model) else {
            return Err(Fault::of(Kind::NoSuchModel).word(part.model));
        };
        if path.contains(&number) {
            return Err(Fault::of(Kind::Recursive).word(part.model));
        }
        if path.len() > MAX_DEPTH {
            return Err(Fault::flat_limit("Depth", MAX_DEPTH + 1));
        }
        if self.met == MAX_INSTANCES {
            return Err(Fault::flat_limit("Instances", MAX_INSTANCES + 1));
        }
        self.met += 1;
        let inner = &self.design.models[number];
        let outer = self.instances[at].model;
        let formal_path = |formal: &[u8]| [&self.prefix(at)[..], part.instance, b".", formal].concat();
        let mut bound = vec![false; inner.inputs];
        for bind in &part.binds {
            let Some(formal) = inner.formal(bind.formal) else {
                return Err(Fault::of(Kind::NoFormal).word(&formal_path(bind.formal)));
            };
            let actual = &outer.nets[bind.actual];
            if inner.nets[formal].values.count != actual.values.count {
                let actual_path = [&self.prefix(at)[..], actual.name].concat();
                return Err(Fault::of(Kind::PortValues).word(&formal_path(bind.formal)).word(&actual_path));
            }
            if let Some(bound) = bound.get_mut(formal) {
                *bound = true;
            }
        }
        match bound.iter().position(|&bound| !bound) {
            Some(open) => Err(Fault::of(Kind::PortOpen).word(&formal_path(inner.nets[open].name))),
            None => Ok(number),
        }
    }

    /// What stands before the names of an instance's nets: the names of the instances round them, each with a full stop.
    fn prefix(&self, at: usize) -> Vec<u8> {
        let mut names = Vec::new();
        let mut round = self.instances[at].round;
        while let Some((outer, part)) = round {
            names.push(part.instance);
            round = self.instances[outer].round;
        }
        names.iter().rev().flat_map(|name| [*name, b"."]).collect::<Vec<_>>().concat()
    }
}

/// A net that isn't bound to one outside, under its flat name.
struct Home<'a> {
    name: Cow<'a, [u8]>,
    values: Rc<Values<'a>>,
    /// How many drivers it has, and the table that is one of them.
    drivers: usize,
    table: Option<usize>,
    /// Its place among the latches, where it is the output of one.
    latch: Option<usize>,
    /// Its number in the network.
    number: usize,
}

/// A table or reset table of an instance.
#[derive(Clone, Copy)]
struct FlatTable<'d> {
    instance: usize,
    table: &'d Table,
    reset: bool,
}

struct Flattening<'d, 'a> {
    tree: Tree<'d, 'a>,
    homes: Vec<Home<'a>>,
    names: HashSet<Cow<'a, [u8]>>,
    /// The homes of the input and the output of each latch.
    latches: Vec<(usize, usize)>,
    tables: Vec<FlatTable<'d>>,
}

fn flatten<'a>(design: &Design<'a>) -> Result<Network<'a>, Fault> {
    let tree = Tree::unfold(design)?;
    let mut flat =
        Flattening { tree, homes: Vec::new(), names: HashSet::new(), latches: Vec::new(), tables: Vec::new() };
    flat.name_nets()?;
    flat.find_drivers()?;
    flat.check_resets()?;
    flat.list_tables();
    let order = flat.order_tables()?;
    flat.check_reset_cones(&order)?;
    Builder::new(flat).build()
}

impl<'d, 'a> Flattening<'d, 'a> {
    /// Gives each net its home: that of the net to which it is bound, or one of its own.
    fn name_nets(&mut self) -> Result<(), Fault> {
        for at in 0..self.tree.instances.len() {
            let Instance { model, round, .. } = self.tree.instances[at];
            let mut bound = vec![None; model.nets.len()];
            if let Some((outer, part)) = round {
                let outer = &self.tree.instances[outer];
                for bind in &part.binds {
                    bound[model.by_name[bind.formal]] = Some(outer.homes[bind.actual]);
                }
            }
            let prefix = self.tree.prefix(at);
            let mut homes = Vec::with_capacity(bound.len());
            for (net, bound) in model.nets.iter().zip(bound) {
                homes.push(match bound {
                    Some(home) => home,
                    None => self.add_home(net, &prefix)?,
                });
            }
            self.tree.instances[at].homes = homes;
        }
        Ok(())
    }

    fn add_home(&mut self, net: &Net<'a>, prefix: &[u8]) -> Result<usize, Fault> {
        if self.homes.len() == MAX_NETS {
            return Err(Fault::flat_limit("Nets", MAX_NETS + 1));
        }
        let length = prefix.len() + net.name.len();
        if length > MAX_NET_NAME {
            return Err(Fault::flat_limit("NetName", length));
        }
        let name = if prefix.is_empty() { Cow::Borrowed(net.name) } else { Cow::Owned([prefix, net.name].concat()) };
        if !self.names.insert(name.clone()) {
            return Err(Fault::of(Kind::NameClash).word(&name));
        }
        let values = Rc::clone(&net.values);
        self.homes.push(Home { name, values, drivers: 0, table: None, latch: None, number: 0 });
        Ok(self.homes.len() - 1)
    }

    fn named(&self, kind: Kind, home: usize) -> Fault {
        Fault::of(kind).word(&self.homes[home].name)
    }

    /// Counts the drivers of each net, which has to be one.
    fn find_drivers(&mut self) -> Result<(), Fault> {
        for instance in &self.tree.instances {
            let inputs = if instance.round.is_none() { 0..instance.model.inputs } else { 0..0 };
            let driven = instance.model.commands.iter().flat_map(Command::driven);
            for net in inputs.chain(driven.copied()) {
                self.homes[instance.homes[net]].drivers += 1;
            }
        }
        if let Some(home) = self.homes.iter().position(|home| home.drivers > 1) {
            return Err(self.named(Kind::DrivenTwice, home));
        }
        match self.homes.iter().position(|home| home.drivers == 0) {
            Some(home) => Err(self.named(Kind::Undriven, home)),
            None => Ok(()),
        }
    }

    /// Each reset table is that of a latch of its model, by the name there, and no latch has two.
    fn check_resets(&self) -> Result<(), Fault> {
        for instance in &self.tree.instances {
            let commands = &instance.model.commands;
            if !commands.iter().any(|command| matches!(command, Command::Reset(_))) {
                continue;
            }
            let latches = commands.iter().filter_map(|command| match command {
                Command::Latch { output, .. } => Some(*output),
                _ => None,
            });
            let latches: HashSet<usize> = latches.collect();
            let mut seen = HashSet::new();
            for command in commands {
                if let Command::Reset(table) = command {
                    let latch = table.outputs[0];
                    if !latches.contains(&latch) {
                        return Err(self.named(Kind::NoLatch, instance.homes[latch]));
                    }
                    if !seen.insert(latch) {
                        return Err(self.named(Kind::ResetTwice, instance.homes[latch]));
                    }
                }
            }
        }
        Ok(())
    }

    /// Lists the tables and the latches in unfolding order, and tells each net which of them drives it.
    fn list_tables(&mut self) {
        for (at, instance) in self.tree.instances.iter().enumerate() {
            for command in &instance.model.commands {
                match command {
                    Command::Table(table) => {
                        for &output in &table.outputs {
                            self.homes[instance.homes[output]].table = Some(self.tables.len());
                        }
                        self.tables.push(FlatTable { instance: at, table, reset: false });
                    }
                    Command::Reset(table) => self.tables.push(FlatTable { instance: at, table, reset: true }),
                    Command::Latch { input, output } => {
                        let (input, output) = (instance.homes[*input], instance.homes[*output]);
                        self.homes[output].latch = Some(self.latches.len());
                        self.latches.push((input, output));
                    }
                    Command::Part(_) => {}
                }
            }
        }
    }

    fn inputs(&self, table: FlatTable<'d>) -> impl Iterator<Item = usize> + '_ {
        let homes = &self.tree.instances[table.instance].homes;
        table.table.inputs.iter().map(|&input| homes[input])
    }

    /// The tables, each behind those that drive its columns; there has to be no cycle.
    fn order_tables(&self) -> Result<Vec<usize>, Fault> {
        let fanins = |&table: &FlatTable<'d>| self.inputs(table).filter_map(|home| self.homes[home].table).collect();
        let fanins: Vec<Vec<usize>> = self.tables.iter().map(fanins).collect();
        let (order, component) = components(&fanins);
        // a net is on a cycle where a table reads it that is as much above as below its own table
        let mut first: Option<usize> = None;
        for (at, &table) in self.tables.iter().enumerate() {
            let on_cycle = |&home: &usize| self.homes[home].table.is_some_and(|fanin| component[fanin] == component[at]);
            first = first.into_iter().chain(self.inputs(table).filter(on_cycle)).min();
        }
        match first {
            Some(home) => Err(self.named(Kind::Cycle, home)),
            None => Ok(order),
        }
    }

    /// No latch output is above a reset table.
    fn check_reset_cones(&self, order: &[usize]) -> Result<(), Fault> {
        let mut least: Vec<Option<usize>> = vec![None; self.tables.len()];
        for &at in order {
            let above = |home: usize| {
                let home = &self.homes[home];
                home.latch.or_else(|| least[home.table?])
            };
            least[at] = self.inputs(self.tables[at]).filter_map(above).min();
        }
        for (table, least) in self.tables.iter().zip(&least) {
            if let (true, &Some(latch)) = (table.reset, least) {
                let reset = self.tree.instances[table.instance].homes[table.table.outputs[0]];
                let reached = &self.homes[self.latches[latch].1];
                return Err(self.named(Kind::ResetReadsLatch, reset).word(&reached.name));
            }
        }
        Ok(())
    }
}

/// The nodes of a graph, each behind those to which its arrows go, as far as there is no cycle, and the number of the
/// strongly connected component of each (Tarjan's method, without recursion).
fn components(arrows: &[Vec<usize>]) -> (Vec<usize>, Vec<usize>) {
    const NONE: usize = usize::MAX;
    let mut order = Vec::with_capacity(arrows.len());
    let mut component = vec![NONE; arrows.len()];
    let mut index = vec![NONE; arrows.len()];
    let mut low = vec![NONE; arrows.len()];
    let (mut seen, mut found) = (0, 0);
    let mut stack = Vec::new();
    let mut frames: Vec<(usize, usize)> = Vec::new();
    for start in 0..arrows.len() {
        if index[start] != NONE {
            continue;
        }
        frames.push((start, 0));
        while let Some(frame) = frames.last_mut() {
            let (node, next) = *frame;
            if next == 0 {
                index[node] = seen;
                low[node] = seen;
                seen += 1;
                stack.push(node);
            }
            frame.1 += 1;
            // the frame comes back here when the arrow before is done
            if next > 0 {
                let done = arrows[node][next - 1];
                if component[done] == NONE {
                    low[node] = low[node].min(low[done]);
                }
            }
            if let Some(&to) = arrows[node].get(next) {
                if index[to] == NONE {
                    frames.push((to, 0));
                }
                continue;
            }
            frames.pop();
            if low[node] == index[node] {
                while let Some(member) = stack.pop() {
                    component[member] = found;
                    order.push(member);
                    if member == node {
                        break;
                    }
                }
                found += 1;
            }
        }
    }
    (order, component)
}

// ---------------------------------------------------------------------------------------------------------------- covers

/// Gathers the lines of a cover, equal ones once.
#[derive(Default)]
struct Lines {
    list: Vec<CoverLine>,
    /// The lines so far, where they are too many to look through.
    set: HashSet<CoverLine>,
}

impl Lines {
    const FEW: usize = 16;

    /// Adds a line if it is new; of more lines than a network may have it keeps just one.
    fn push(&mut self, cube: Cube, out: ValueSet) {
        if self.list.len() > MAX_FLAT_LINES {
            return;
        }
        let line = CoverLine { cube, out };
        let new = if self.list.len() < Lines::FEW {
            !self.list.contains(&line)
        } else {
            if self.set.is_empty() {
                self.set.extend(self.list.iter().cloned());
            }
            self.set.insert(line.clone())
        };
        if new {
            self.list.push(line);
        }
    }
}

/// The distinct rows of outputs of a joint table.
#[derive(Default)]
struct Choices {
    list: Vec<Vec<ValueSet>>,
    places: HashMap<Vec<ValueSet>, usize>,
}

impl Choices {
    fn value(&mut self, outs: &[ValueSet]) -> Result<ValueSet, Fault> {
        if let Some(&place) = self.places.get(outs) {
            return Ok(ValueSet::one(place));
        }
        let place = self.list.len();
        if place == MAX_JOINT_ROWS {
            return Err(Fault::of(Kind::JointWide).number(MAX_JOINT_ROWS + 1));
        }
        self.list.push(outs.to_vec());
        self.places.insert(outs.to_vec(), place);
        Ok(ValueSet::one(place))
    }

    /// The table of an output, which reads the choice net.
    fn cover(&self, choice: usize, output: usize) -> Cover {
        let line = |(value, outs): (usize, &Vec<ValueSet>)| {
            let literal = Literal { net: choice, set: ValueSet::one(value) };
            let cube = if self.list.len() == 1 { Vec::new() } else { vec![literal] };
            CoverLine { cube, out: outs[output] }
        };
        Cover { lines: self.list.iter().enumerate().map(line).collect(), default: None }
    }
}

/// A column of a table instance: the number of its net and how many values it has.
struct Column {
    net: usize,
    count: usize,
}

/// The cube of a row, in which columns of one net are met; none where a net has no value left.
fn cube_of(row: &Row, columns: &[Column]) -> Option<Cube> {
    let mut cube: Cube = row.ins.iter().map(|&(place, set)| Literal { net: columns[place].net, set }).collect();
    cube.sort_by_key(|literal| literal.net);
    cube.dedup_by(|next, kept| {
        let same = next.net == kept.net;
        if same {
            kept.set = kept.set.meet(next.set);
        }
        same
    });
    cube.iter().all(|literal| literal.set != ValueSet::EMPTY).then_some(cube)
}

/// Calls `each` with the rows that a row stands for: one per value of each net that an output is equal to.
/// The outputs so far are in `outs`, which is again as it was when the call returns.
fn split<F>(cube: Cube, entries: &[Entry], columns: &[Column], outs: &mut Vec<ValueSet>, each: &mut F) -> Result<(), Fault>
where
    F: FnMut(Cube, &[ValueSet]) -> Result<(), Fault>,
{
    let begin = outs.len();
    for entry in &entries[begin..] {
        match entry {
            Entry::Set(set) => outs.push(*set),
            Entry::Same(place) => {
                let column = &columns[*place];
                let full = ValueSet::full(column.count);
                let found = cube.binary_search_by_key(&column.net, |literal| literal.net);
                let set = found.map_or(full, |at| cube[at].set);
                for value in set.values().map(ValueSet::one) {
                    let mut cube = cube.clone();
                    match found {
                        Ok(at) => cube[at].set = value,
                        Err(at) if value != full => cube.insert(at, Literal { net: column.net, set: value }),
                        Err(_) => {}
                    }
                    outs.push(value);
                    split(cube, entries, columns, outs, each)?;
                    outs.pop();
                }
                outs.truncate(begin);
                return Ok(());
            }
        }
    }
    each(cube, outs)?;
    outs.truncate(begin);
    Ok(())
}

fn has_empty(entries: &[Entry]) -> bool {
    entries.iter().any(|entry| matches!(entry, Entry::Set(ValueSet::EMPTY)))
}

fn has_same(entries: &[Entry]) -> bool {
    entries.iter().any(|entry| matches!(entry, Entry::Same(_)))
}

/// The sets of entries among which there is no `=`.
fn sets(entries: &[Entry]) -> Vec<ValueSet> {
    let set = |entry: &Entry| match entry {
        Entry::Set(set) => Some(*set),
        Entry::Same(_) => None,
    };
    entries.iter().filter_map(set).collect()
}

/// The rows of a table instance whose inputs have a value left, not yet split.
struct Rows<'d> {
    /// Those that give a value to each output; the last is the default where it needs a mark.
    live: Vec<(Cube, &'d [Entry])>,
    /// The default where it is still one.
    default: Option<&'d [Entry]>,
    /// All rows, where a mark is needed.
    marked: Option<Vec<(Cube, &'d [Entry])>>,
}

impl<'d> Rows<'d> {
    fn new(table: &'d Table, columns: &[Column], mark: usize) -> Self {
        let rows = table.rows.iter().filter_map(|row| Some((cube_of(row, columns)?, &row.outs[..])));
        let mut live: Vec<(Cube, &[Entry])> = rows.collect();
        // a row that has no literal once it is split keeps the default away from every point
        let splits = |entry: &Entry| matches!(entry, Entry::Same(place) if columns[*place].count > 1);
        let always = live.iter().any(|(cube, outs)| cube.is_empty() && !outs.iter().any(splits));
        let mut default = table.default.as_deref().filter(|default| !always && !has_empty(default));
        let partly_empty = live.iter().any(|(_, outs)| has_empty(outs));
        let to_mark = default.filter(|default| partly_empty || has_same(default));
        let marked = to_mark.map(|_| live.clone());
        if partly_empty {
            live.retain(|(_, outs)| !has_empty(outs));
        }
        if let Some(outs) = to_mark {
            live.push((vec![Literal { net: mark, set: ValueSet::one(1) }], outs));
            default = None;
        }
        Rows { live, default, marked }
    }
}

/// Makes the network of a sound design.
struct Builder<'d, 'a> {
    flat: Flattening<'d, 'a>,
    nets: Vec<Option<FlatNet<'a>>>,
    /// How many nets there are, marks, choice nets and reset nets among them, and the lines and literals of their tables.
    held: usize,
    lines: usize,
    entries: usize,
    /// The least number that may still be free in a name `_m1`, `_m2` and so on.
    fresh: usize,
}

impl<'d, 'a> Builder<'d, 'a> {
    fn new(flat: Flattening<'d, 'a>) -> Self {
        let held = flat.homes.len();
        Builder { flat, nets: Vec::new(), held, lines: 0, entries: 0, fresh: 1 }
    }

    fn build(mut self) -> Result<Network<'a>, Fault> {
        let bases = self.number_nets();
        let tables = std::mem::take(&mut self.flat.tables);
        for (&table, base) in tables.iter().zip(bases) {
            self.add_table(table, base)?;
        }
        let number = |&home: &usize| self.flat.homes[home].number;
        let root = &self.flat.tree.instances[0];
        let outputs = root.model.outputs.iter().map(|&net| number(&root.homes[net])).collect();
        let latches = self.flat.latches.iter().map(|(input, output)| (number(input), number(output))).collect();
        let inputs = root.homes[..root.model.inputs].iter().map(number).collect();
        Ok(Network { root: root.model.name, inputs, outputs, latches, nets: self.nets })
    }

    /// Numbers the nets: the inputs, the latch outputs, and for each table its mark, its choice net and its outputs.
    /// It answers the first number of each table.
    fn number_nets(&mut self) -> Vec<usize> {
        let root = &self.flat.tree.instances[0];
        for &home in &root.homes[..root.model.inputs] {
            self.flat.homes[home].number = self.nets.len();
            self.nets.push(Some(self.flat.homes[home].net(Driver::Input)));
        }
        for &(_, home) in &self.flat.latches {
            self.flat.homes[home].number = self.nets.len();
            self.nets.push(Some(self.flat.homes[home].net(Driver::Latch)));
        }
        let mut next = self.nets.len();
        let mut bases = Vec::with_capacity(self.flat.tables.len());
        for table in &self.flat.tables {
            bases.push(next);
            next += 2;
            for &output in &table.table.outputs {
                if !table.reset {
                    self.flat.homes[self.flat.tree.instances[table.instance].homes[output]].number = next;
                }
                next += 1;
            }
        }
        self.nets.resize_with(next, || None);
        bases
    }

    /// Makes the nets of a table: a mark with the number `base`, a choice net with the next, and then its outputs.
    fn add_table(&mut self, flat: FlatTable<'d>, base: usize) -> Result<(), Fault> {
        let column = |home: usize| {
            let home = &self.flat.homes[home];
            Column { net: home.number, count: home.values.count }
        };
        let columns: Vec<Column> = self.flat.inputs(flat).map(column).collect();
        let rows = Rows::new(flat.table, &columns, base);

        let count = flat.table.outputs.len();
        let mut choices = (count > 1).then(Choices::default);
        let mut lines = Lines::default();
        for (cube, outs) in rows.live {
            split(cube, outs, &columns, &mut Vec::new(), &mut |cube, outs| {
                let out = match &mut choices {
                    Some(choices) => choices.value(outs)?,
                    None => outs[0],
                };
                lines.push(cube, out);
                Ok(())
            })?;
        }
        let default = match (rows.default.map(sets), &mut choices) {
            (Some(outs), Some(choices)) => Some(choices.value(&outs)?),
            (Some(outs), None) => Some(outs[0]),
            (None, _) => None,
        };
        let cover = Cover { lines: lines.list, default };

        let made = [rows.marked.is_some(), choices.is_some(), flat.reset];
        self.held += made.iter().filter(|&&made| made).count();
        if self.held > MAX_NETS {
            return Err(Fault::flat_limit("Nets", MAX_NETS + 1));
        }
        if let Some(rows) = rows.marked {
            let cover = self.mark(rows, &columns)?;
            self.add_made(base, 2, cover);
        }
        match choices {
            None => self.add_output(flat, 0, base + 2, cover),
            Some(choices) => {
                self.add_made(base + 1, choices.list.len().max(1), cover);
                for output in 0..count {
                    self.add_output(flat, output, base + 2 + output, choices.cover(base + 1, output));
                }
            }
        }
        self.count_covers(base, base + 2 + count)
    }

    /// The table of a mark: 0 where some row matches, and else 1.
    fn mark(&self, rows: Vec<(Cube, &[Entry])>, columns: &[Column]) -> Result<Cover, Fault> {
        let mut lines = Lines::default();
        for (cube, outs) in rows {
            split(cube, outs, columns, &mut Vec::new(), &mut |cube, _| {
                lines.push(cube, ValueSet::one(0));
                self.within_lines(lines.list.len())
            })?;
        }
        Ok(Cover { lines: lines.list, default: Some(ValueSet::one(1)) })
    }

    /// Adds a mark or choice net, under the first free name.
    fn add_made(&mut self, number: usize, count: usize, cover: Cover) {
        let name = loop {
            let name = Cow::Owned(format!("_m{}", self.fresh).into_bytes());
            self.fresh += 1;
            if self.flat.names.insert(Cow::clone(&name)) {
                break name;
            }
        };
        self.nets[number] = Some(FlatNet { name, values: Rc::new(Values::numbered(count)), driver: Driver::Table, cover });
    }

    fn add_output(&mut self, flat: FlatTable<'d>, output: usize, number: usize, cover: Cover) {
        let home = self.flat.tree.instances[flat.instance].homes[flat.table.outputs[output]];
        let driver = if flat.reset { Driver::Reset } else { Driver::Table };
        self.nets[number] = Some(FlatNet { cover, ..self.flat.homes[home].net(driver) });
    }

    fn within_lines(&self, more: usize) -> Result<(), Fault> {
        if self.lines + more > MAX_FLAT_LINES {
            return Err(Fault::flat_limit("FlatLines", MAX_FLAT_LINES + 1));
        }
        Ok(())
    }

    /// Counts the lines and literals of the nets from the first number to the one before the last.
    fn count_covers(&mut self, first: usize, last: usize) -> Result<(), Fault> {
        for net in self.nets[first..last].iter().flatten() {
            self.lines += net.cover.lines.len();
            self.entries += net.cover.literals();
        }
        self.within_lines(0)?;
        if self.entries > MAX_FLAT_ENTRIES {
            return Err(Fault::flat_limit("FlatEntries", MAX_FLAT_ENTRIES + 1));
        }
        Ok(())
    }
}

impl<'a> Home<'a> {
    fn net(&self, driver: Driver) -> FlatNet<'a> {
        FlatNet { name: self.name.clone(), values: Rc::clone(&self.values), driver, cover: Cover::default() }
    }
}

// ------------------------------------------------------------------------------------------------------------------ text

impl Network<'_> {
    fn net(&self, number: usize) -> &FlatNet<'_> {
        self.nets[number].as_ref().expect("nets are read only where there are some")
    }

    fn write(&self, out: &mut impl Write) -> io::Result<()> {
        let names = |numbers: &[usize]| -> Vec<&[u8]> { numbers.iter().map(|&number| &self.net(number).name[..]).collect() };
        write_words(out, b".model", &[self.root])?;
        write_words(out, b".inputs", &names(&self.inputs))?;
        write_words(out, b".outputs", &names(&self.outputs))?;
        for net in self.nets.iter().flatten() {
            let binary = net.values.count == 2 && net.values.names.is_empty();
            if net.driver != Driver::Reset && !binary {
                out.write_all(b".mv ")?;
                out.write_all(&net.name)?;
                write!(out, " {}", net.values.count)?;
                write_words(out, b"", &net.values.names)?;
            }
        }
        for &(input, output) in &self.latches {
            write_words(out, b".latch", &names(&[input, output]))?;
        }
        for net in self.nets.iter().flatten() {
            match net.driver {
                Driver::Table => self.write_table(b".table", net, out)?,
                Driver::Reset => self.write_table(b".reset", net, out)?,
                Driver::Input | Driver::Latch => {}
            }
        }
        out.write_all(b".end\n")
    }

    fn write_table(&self, command: &[u8], net: &FlatNet, out: &mut impl Write) -> io::Result<()> {
        let cover = &net.cover;
        let mut fanins: Vec<usize> = cover.lines.iter().flat_map(|line| line.cube.iter().map(|lit| lit.net)).collect();
        fanins.sort_unstable();
        fanins.dedup();
        out.write_all(command)?;
        for &fanin in &fanins {
            out.write_all(b" ")?;
            out.write_all(&self.net(fanin).name)?;
        }
        write_words(out, b" ->", &[&net.name])?;
        if let Some(default) = cover.default {
            out.write_all(b".default ")?;
            write_entry(default, &net.values, out)?;
            out.write_all(b"\n")?;
        }
        for line in &cover.lines {
            let mut literals = line.cube.iter().peekable();
            for &fanin in &fanins {
                match literals.next_if(|literal| literal.net == fanin) {
                    Some(literal) => write_entry(literal.set, &self.net(fanin).values, out)?,
                    None => out.write_all(b"-")?,
                }
                out.write_all(b" ")?;
            }
            write_entry(line.out, &net.values, out)?;
            out.write_all(b"\n")?;
        }
        Ok(())
    }
}

fn write_words(out: &mut impl Write, begin: &[u8], words: &[&[u8]]) -> io::Result<()> {
    out.write_all(begin)?;
    for word in words {
        out.write_all(b" ")?;
        out.write_all(word)?;
    }
    out.write_all(b"\n")
}

fn write_entry(set: ValueSet, values: &Values, out: &mut impl Write) -> io::Result<()> {
    if set == values.full() {
        return out.write_all(b"-");
    }
    if let Some(value) = set.single() {
        return write_value(value, values, out);
    }
    let mut between: &[u8] = b"(";
    for value in set.values() {
        out.write_all(between)?;
        write_value(value, values, out)?;
        between = b",";
    }
    out.write_all(b")")
}

fn write_value(value: usize, values: &Values, out: &mut impl Write) -> io::Result<()> {
    match values.names.get(value) {
        Some(name) => out.write_all(name),
        None if value < 10 => out.write_all(&[b'0' + value as u8]),
        None => write!(out, "{value}"),
    }
}

// --------------------------------------------------------------------------------------------------------------- program

/// The bytes of a file, or as many as tell that it is too large.
fn read_file(path: &str) -> io::Result<Vec<u8>> {
    let mut bytes = Vec::new();
    File::open(path)?.take(MAX_FILE as u64 + 1).read_to_end(&mut bytes)?;
    Ok(bytes)
}

fn write_file(path: &str, network: &Network) -> io::Result<()> {
    let mut out = BufWriter::new(File::create(path)?);
    network.write(&mut out)?;
    out.flush()
}

fn read_design(bytes: &[u8]) -> Result<Design<'_>, Fault> {
    parse(&lex(bytes)?)
}

fn main() -> ExitCode {
    let words: Vec<String> = std::env::args().skip(1).collect();
    let [net, out] = &words[..] else {
        eprintln!("# fault words");
        return ExitCode::from(1);
    };
    let Ok(bytes) = read_file(net) else {
        eprintln!("# fault read");
        return ExitCode::from(4);
    };
    let network = read_design(&bytes).and_then(|design| flatten(&design));
    match network.map(|network| write_file(out, &network)) {
        Ok(Ok(())) => ExitCode::SUCCESS,
        Ok(Err(_)) => ExitCode::from(5),
        Err(fault) => {
            eprintln!("{fault}");
            ExitCode::from(2)
        }
    }
}
