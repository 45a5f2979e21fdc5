// What `bench/lines.sh` holds the lexer against: cuts standard input at line feeds and blanks, copies each word, keeps all
// lines, and counts them and their words. It knows no comments, joined lines, brackets, limits or faults.
use std::io::Read;

struct Line {
    number: u32,
    words: Vec<Box<[u8]>>,
}

fn main() -> std::io::Result<()> {
    let mut room = vec![0u8; 65_536];
    let mut lines: Vec<Line> = Vec::new();
    let mut words: Vec<Box<[u8]>> = Vec::new();
    let mut word: Vec<u8> = Vec::new();
    let mut number = 1;
    let mut input = std::io::stdin().lock();
    loop {
        let count = input.read(&mut room)?;
        if count == 0 {
            break;
        }
        for &b in &room[..count] {
            if !matches!(b, b' ' | b'\t' | b'\r' | b'\n') {
                word.push(b);
                continue;
            }
            if !word.is_empty() {
                words.push(word.as_slice().into());
                word.clear();
            }
            if b == b'\n' {
                if !words.is_empty() {
                    lines.push(Line { number, words: std::mem::take(&mut words) });
                }
                number += 1;
            }
        }
    }
    if !word.is_empty() {
        words.push(word.as_slice().into());
    }
    if !words.is_empty() {
        lines.push(Line { number, words });
    }
    let words: usize = lines.iter().map(|line| line.words.len()).sum();
    let ascending = lines.windows(2).all(|pair| pair[0].number < pair[1].number);
    assert!(ascending);
    println!("lex {} lines {words} words", lines.len());
    Ok(())
}
