//! Writes a transcript: each request of groat after `> `, the answer below it, and comments between. docs/GROAT.md is
//! the language.

use crate::ask::{Origin, Wanted};
use crate::floats::Single;
use std::fmt::Display;
use std::io::{BufWriter, Stdout, Write, stdout};

pub struct Transcript {
    out: BufWriter<Stdout>,
    /// Whether it is the recorded list, whose long tables are such as a few items can write.
    pub brief: bool,
    /// The bytes of the tag that groat keeps.
    tag: String,
    /// Each request that is counted, and its answers by their origin.
    counts: Vec<(String, [u64; 4])>,
}

impl Transcript {
    pub fn begin(brief: bool) -> Transcript {
        let out = BufWriter::with_capacity(1 << 20, stdout());
        Transcript { out, brief, tag: "-".into(), counts: Vec::new() }
    }

    fn line(&mut self, start: &str, text: &str) {
        writeln!(self.out, "{start}{text}").expect("the transcript can be written");
    }

    pub fn comment(&mut self, text: &str) {
        self.line("# ", text);
    }

    fn exchange(&mut self, request: &str, answer: &str) {
        self.line("> ", request);
        self.line("", answer);
    }

    /// The table that the requests after it are about.
    pub fn table(&mut self, table: &[u16]) {
        let list = in_pieces(table, entries);
        self.exchange(&format!("table {list}"), &format!("ok {}", table.len()));
    }

    /// The list that `flookup` is about.
    pub fn floats(&mut self, patterns: &[u32]) {
        let list = in_pieces(patterns, singles);
        self.exchange(&format!("floats {list}"), &format!("ok {}", patterns.len()));
    }

    /// The tag that a request which writes none must leave.
    pub fn tag(&mut self, bytes: &[u8]) {
        self.tag = digits(bytes);
        self.exchange(&format!("tag {}", self.tag), &format!("ok {}", bytes.len()));
    }

    /// A list of questions, each answered by an item.
    pub fn ask<Q: Display, A: Display>(&mut self, words: &str, questions: &[Q], answer: impl Fn(&Q) -> Wanted<A>) {
        let mut items = Vec::with_capacity(questions.len());
        for question in questions {
            let wanted = answer(question);
            self.count(words, wanted.origin, 1);
            items.push(wanted.answer.map_or_else(|number| format!("!{number}"), |answer| answer.to_string()));
        }
        self.exchange(&format!("{words} {}", list(questions)), &list(&items));
    }

    /// A request that is answered or refused as a whole. Each item of a list counts as an answer, and so does whatever
    /// else is answered.
    pub fn whole<A: Display>(&mut self, request: &str, wanted: Wanted<Vec<A>>) {
        let answers = wanted.answer.as_ref().map_or(1, Vec::len);
        self.count(request, wanted.origin, answers as u64);
        let answer = wanted.answer.map_or_else(|number| format!("refused {number}"), |items| list(&items));
        self.exchange(request, &answer);
    }

    /// A request that makes these bytes the tag, and after it `hex`, which shows what tag there is then.
    pub fn written(&mut self, request: &str, wanted: Wanted<Vec<u8>>) {
        if let Ok(bytes) = &wanted.answer {
            self.tag = digits(bytes);
        }
        self.whole(request, wanted.map(|bytes| vec![format!("ok {}", bytes.len())]));
        let tag = self.tag.clone();
        self.exchange("hex", &tag);
    }

    fn count(&mut self, request: &str, origin: Origin, answers: u64) {
        let word = request.split(' ').next().unwrap_or(request);
        let at = self.counts.iter().position(|(name, _)| name == word).unwrap_or_else(|| {
            self.counts.push((word.into(), [0; 4]));
            self.counts.len() - 1
        });
        self.counts[at].1[origin as usize] += answers;
    }

    /// The answers so far, without those of the rows, which ask what `lookup` asks.
    pub fn asked(&self) -> u64 {
        self.counts.iter().filter(|(word, _)| word != "row").flat_map(|(_, counts)| counts).sum()
    }

    /// Says what was counted, so that a reader can count again, and ends the transcript.
    pub fn end(mut self) {
        self.comment(
            "Answers: in all; the Rust's, the widened text's; refused where the Rust answers, and where it panics.",
        );
        for (word, counts) in std::mem::take(&mut self.counts) {
            let sum: u64 = counts.iter().sum();
            let [rust, widened, alone, both] = counts;
            self.comment(&format!("{word}: {sum}; {rust}, {widened}; {alone}, {both}"));
        }
        self.comment("end");
        self.out.flush().expect("the transcript can be written");
    }
}

/// Items parted by commas, or `-` for none.
pub fn list<T: Display>(items: &[T]) -> String {
    if items.is_empty() {
        return "-".into();
    }
    let items: Vec<String> = items.iter().map(T::to_string).collect();
    items.join(",")
}

/// A list of which `piece` takes so many items from the front and writes them as one.
fn in_pieces<T>(items: &[T], piece: fn(&[T]) -> (usize, String)) -> String {
    let mut pieces = Vec::new();
    let mut rest = items;
    while !rest.is_empty() {
        let (taken, text) = piece(rest);
        pieces.push(text);
        rest = &rest[taken..];
    }
    list(&pieces)
}

/// From here on this many are the same.
fn run<T: PartialEq>(items: &[T]) -> usize {
    items.iter().take_while(|&item| *item == items[0]).count()
}

/// Three entries or more that are the same, or that rise by one, are one item.
fn entries(rest: &[u16]) -> (usize, String) {
    let first = usize::from(rest[0]);
    let same = run(rest);
    let rising = rest.iter().zip(first..).take_while(|&(&entry, next)| usize::from(entry) == next).count();
    match (same, rising) {
        (3.., _) => (same, format!("{first}*{same}")),
        (_, 3..) => (rising, format!("{first}:{}", first + rising)),
        _ => (1, first.to_string()),
    }
}

fn singles(rest: &[u32]) -> (usize, String) {
    let first = Single(rest[0]);
    let same = run(rest);
    if same > 1 { (same, format!("{first}*{same}")) } else { (1, first.to_string()) }
}

/// Bytes in hexadecimal digits.
fn digits(bytes: &[u8]) -> String {
    bytes.iter().map(|byte| format!("{byte:02x}")).collect()
}
