//! The order unit once more, in plain Rust with the standard library, written apart from the crates.
//! It is the independent side of the comparison in tests/compare: standard input to standard output.
use std::collections::{BTreeMap, HashMap, HashSet};
use std::io::{Read, Write};

#[derive(Clone, Copy, PartialEq, Debug)]
enum Sign {
    Semicolon,
    Comma,
    Open(bool),
    Close(bool),
    Path,
    End,
    Name,
}

struct Fault {
    stage: &'static str,
    number: u32,
    place: usize,
}

fn fault<T>(stage: &'static str, number: u32, place: usize) -> Result<T, Fault> {
    Err(Fault { stage, number, place })
}

/// The next token from a place on: its kind, place and end.
fn token(text: &[u8], mut at: usize) -> Result<Option<(Sign, usize, usize)>, Fault> {
    while at < text.len() && matches!(text[at], 32 | 9 | 10 | 13) {
        at += 1;
    }
    if at == text.len() {
        return Ok(None);
    }
    let sign = match text[at] {
        b';' => Sign::Semicolon,
        b',' => Sign::Comma,
        b'(' => Sign::Open(false),
        b')' => Sign::Close(false),
        b'{' => Sign::Open(true),
        b'}' => Sign::Close(true),
        b'a'..=b'z' => {
            let end = (at..text.len()).find(|&i| !text[i].is_ascii_lowercase() && !text[i].is_ascii_digit()).unwrap_or(text.len());
            if end - at > 16 {
                return fault("bytes", 3, at);
            }
            let kind = match &text[at..end] {
                b"path" => Sign::Path,
                b"end" => Sign::End,
                _ => Sign::Name,
            };
            return Ok(Some((kind, at, end)));
        }
        _ => return fault("bytes", 2, at),
    };
    Ok(Some((sign, at, at + 1)))
}

#[derive(Clone, Copy, PartialEq)]
enum Expect {
    Path,
    Element,
    Behind,
}

struct Accepted {
    tokens: Vec<(Sign, usize)>,
    names: Vec<Vec<u8>>,
}

/// All tokens with the numbers of the names, or the first fault.
fn read(text: &[u8]) -> Result<Accepted, Fault> {
    if text.len() > 16_384 {
        return fault("bytes", 1, 16_384);
    }
    let (mut tokens, mut names, mut numbers) = (Vec::new(), Vec::new(), HashMap::new());
    let (mut open, mut own) = (Vec::new(), HashSet::new());
    let (mut expect, mut paths, mut words, mut pairs, mut at) = (Expect::Path, 0, 0, 0, 0);
    while let Some((sign, place, end)) = token(text, at)? {
        let lawful = match (expect, sign) {
            (Expect::Path, Sign::Path) => true,
            (Expect::Element, Sign::Name | Sign::Open(_)) => true,
            (Expect::Behind, Sign::Semicolon | Sign::Comma) => true,
            (Expect::Behind, Sign::Close(brace)) => open.last() == Some(&brace),
            (Expect::Behind, Sign::End) => open.is_empty(),
            _ => false,
        };
        if !lawful {
            return fault("grammar", 4, place);
        }
        let mut number = 0;
        match sign {
            Sign::Path => {
                paths += 1;
                own.clear();
                if paths > 32 {
                    return fault("rules", 9, place);
                }
                expect = Expect::Element;
            }
            Sign::Open(brace) => {
                if open.len() == 16 {
                    return fault("rules", 6, place);
                }
                if brace && open.contains(&true) {
                    return fault("rules", 7, place);
                }
                pairs += 1;
                if pairs > 256 {
                    return fault("rules", 12, place);
                }
                open.push(brace);
            }
            Sign::Close(_) => {
                open.pop();
            }
            Sign::Name => {
                let word = text[place..end].to_vec();
                if own.contains(&word) {
                    return fault("rules", 8, place);
                }
                if !numbers.contains_key(&word) && names.len() == 64 {
                    return fault("rules", 10, place);
                }
                words += 1;
                if words > 256 {
                    return fault("rules", 11, place);
                }
                number = *numbers.entry(word.clone()).or_insert_with(|| {
                    names.push(word.clone());
                    names.len() - 1
                });
                own.insert(word);
                expect = Expect::Behind;
            }
            Sign::Semicolon | Sign::Comma => expect = Expect::Element,
            Sign::End => expect = Expect::Path,
        }
        tokens.push((sign, number));
        at = end;
    }
    if expect != Expect::Path || tokens.is_empty() {
        return fault("grammar", 5, text.len());
    }
    Ok(Accepted { tokens, names })
}

#[derive(Clone, Copy)]
struct Door {
    semaphore: usize,
    counter: Option<usize>,
}

impl std::fmt::Display for Door {
    fn fmt(&self, f: &mut std::fmt::Formatter) -> std::fmt::Result {
        match self.counter {
            Some(counter) => write!(f, "{}/{}", self.semaphore, counter),
            None => write!(f, "{}", self.semaphore),
        }
    }
}

struct Occurrence {
    path: usize,
    operation: usize,
    left: Door,
    right: Door,
}

enum Tree {
    Name(usize),
    Brackets(bool, Vec<Vec<Tree>>),
}

/// A sequence of selections of elements, from the tokens behind `at`.
fn sequence(tokens: &[(Sign, usize)], at: &mut usize) -> Vec<Vec<Tree>> {
    let mut selections = vec![Vec::new()];
    loop {
        let (sign, number) = tokens[*at];
        *at += 1;
        let element = match sign {
            Sign::Open(brace) => {
                let inner = sequence(tokens, at);
                *at += 1;
                Tree::Brackets(brace, inner)
            }
            _ => Tree::Name(number),
        };
        selections.last_mut().unwrap().push(element);
        match tokens[*at].0 {
            Sign::Comma => *at += 1,
            Sign::Semicolon => {
                *at += 1;
                selections.push(Vec::new());
            }
            _ => return selections,
        }
    }
}

#[derive(Default)]
struct Doors {
    list: Vec<Occurrence>,
    semaphores: Vec<u64>,
    counters: Vec<u64>,
}

/// How many `;` stand in a tree.
fn semicolons(sequence: &[Vec<Tree>]) -> usize {
    let inner: usize = sequence.iter().flatten().map(|e| if let Tree::Brackets(_, s) = e { semicolons(s) } else { 0 }).sum();
    inner + sequence.len() - 1
}

impl Doors {
    fn pass(&mut self, path: usize, sequence: &[Vec<Tree>], left: Door, right: Door) {
        let mut left = left;
        for (i, selection) in sequence.iter().enumerate() {
            let last = i + 1 == sequence.len();
            let inside: usize = selection.iter().map(|e| if let Tree::Brackets(_, s) = e { semicolons(s) } else { 0 }).sum();
            let middle = Door { semaphore: self.semaphores.len() + inside, counter: None };
            let to = if last { right } else { middle };
            for element in selection {
                match element {
                    Tree::Name(operation) => self.list.push(Occurrence { path, operation: *operation, left, right: to }),
                    Tree::Brackets(false, inner) => self.pass(path, inner, left, to),
                    Tree::Brackets(true, inner) => {
                        let counter = Some(self.counters.len());
                        self.counters.push(0);
                        self.pass(path, inner, Door { counter, ..left }, Door { counter, ..to });
                    }
                }
            }
            if !last {
                assert_eq!(self.semaphores.len(), middle.semaphore);
                self.semaphores.push(0);
                left = middle;
            }
        }
    }

    fn open(&self, operation: usize) -> bool {
        self.list.iter().filter(|o| o.operation == operation).all(|o| {
            self.semaphores[o.left.semaphore] >= 1 || o.left.counter.is_some_and(|c| self.counters[c] >= 1)
        })
    }

    fn enter(&mut self, operation: usize) {
        for o in self.list.iter().filter(|o| o.operation == operation) {
            match o.left.counter {
                Some(c) => {
                    if self.counters[c] == 0 {
                        self.semaphores[o.left.semaphore] -= 1;
                    }
                    self.counters[c] += 1;
                }
                None => self.semaphores[o.left.semaphore] -= 1,
            }
        }
    }

    fn leave(&mut self, operation: usize) {
        for o in self.list.iter().filter(|o| o.operation == operation) {
            match o.right.counter {
                Some(c) => {
                    self.counters[c] -= 1;
                    if self.counters[c] == 0 {
                        self.semaphores[o.right.semaphore] += 1;
                    }
                }
                None => self.semaphores[o.right.semaphore] += 1,
            }
        }
    }
}

fn translate(tokens: &[(Sign, usize)]) -> Doors {
    let (mut doors, mut at, mut path) = (Doors::default(), 0, 0);
    while at < tokens.len() {
        at += 1;
        let tree = sequence(tokens, &mut at);
        at += 1;
        let own = Door { semaphore: doors.semaphores.len(), counter: None };
        doors.semaphores.push(1);
        doors.pass(path, &tree, own, own);
        path += 1;
    }
    doors
}

enum Line<'a> {
    Begin(&'a [u8], u32),
    End(&'a [u8]),
    Withdraw(u64),
}

/// A lawful line, or the place where it can no longer become one.
fn line(bytes: &[u8]) -> Result<Line<'_>, usize> {
    let expect = |at: usize, ok: &dyn Fn(u8) -> bool| if bytes.get(at).is_some_and(|&b| ok(b)) { Ok(()) } else { Err(at) };
    expect(0, &|b| matches!(b, b'b' | b'e' | b'w'))?;
    expect(1, &|b| b == b' ')?;
    let mut at = 2;
    if bytes[0] == b'w' {
        expect(2, &|b| matches!(b, b'1'..=b'9'))?;
        while at < bytes.len() {
            if at == 9 || !bytes[at].is_ascii_digit() {
                return Err(at);
            }
            at += 1;
        }
        return Ok(Line::Withdraw(std::str::from_utf8(&bytes[2..]).unwrap().parse().unwrap()));
    }
    expect(2, &|b| b.is_ascii_lowercase())?;
    while at < bytes.len() && at < 18 && (bytes[at].is_ascii_lowercase() || bytes[at].is_ascii_digit()) {
        at += 1;
    }
    let name = &bytes[2..at];
    if bytes[0] == b'e' {
        return if at == bytes.len() { Ok(Line::End(name)) } else { Err(at) };
    }
    expect(at, &|b| b == b' ')?;
    expect(at + 1, &|b| b.is_ascii_digit())?;
    if bytes.len() > at + 2 {
        return Err(at + 2);
    }
    Ok(Line::Begin(name, u32::from(bytes[at + 1] - b'0')))
}

fn main() {
    let mut input = Vec::new();
    std::io::stdin().read_to_end(&mut input).unwrap();
    let mut out = Vec::new();
    unit(&input, &mut out);
    std::io::stdout().write_all(&out).unwrap();
}

fn unit(input: &[u8], out: &mut Vec<u8>) {
    if input.len() > 65_536 {
        writeln!(out, "input longer than 65536").unwrap();
        return;
    }
    let (mut start, mut text, mut log) = (0, input, &input[..0]);
    while start < input.len() {
        let end = input[start..].iter().position(|&b| b == 10).map_or(input.len(), |n| start + n);
        if &input[start..end] == b"%" {
            text = &input[..start];
            log = &input[(end + 1).min(input.len())..];
            break;
        }
        start = end + 1;
    }
    let read = match read(text) {
        Ok(read) => read,
        Err(f) => {
            writeln!(out, "{} {} at {}", f.stage, f.number, f.place).unwrap();
            return;
        }
    };
    let show = |operation: usize| std::str::from_utf8(&read.names[operation]).unwrap();
    let mut doors = translate(&read.tokens);
    for o in &doors.list {
        writeln!(out, "{} {} in {} out {}", o.path, show(o.operation), o.left, o.right).unwrap();
    }
    // the room by rank: the greatest rank first, among equals the smallest ticket
    let mut room: BTreeMap<(u32, u64), usize> = BTreeMap::new();
    let mut running = vec![0u64; read.names.len()];
    let (mut accepted, mut ended, mut withdrawn) = (0u64, 0u64, 0u64);
    let mut lines: Vec<&[u8]> = log.split(|&b| b == 10).collect();
    if lines.last().is_some_and(|l| l.is_empty()) {
        lines.pop();
    }
    for (i, bytes) in lines.iter().enumerate() {
        let n = i + 1;
        let number = |name: &[u8]| read.names.iter().position(|m| m == name);
        match line(bytes) {
            Err(place) => writeln!(out, "{n} refused 20 at {place}").unwrap(),
            Ok(Line::Begin(name, rank)) => match number(name) {
                None => writeln!(out, "{n} refused 21 at 2").unwrap(),
                Some(_) if accepted == 1_000_000 => writeln!(out, "{n} refused 15").unwrap(),
                Some(a) if doors.open(a) => {
                    doors.enter(a);
                    running[a] += 1;
                    accepted += 1;
                    writeln!(out, "{n} {} in {accepted}", show(a)).unwrap();
                }
                Some(_) if room.len() == 256 => writeln!(out, "{n} refused 16").unwrap(),
                Some(a) => {
                    accepted += 1;
                    room.insert((9 - rank, accepted), a);
                    writeln!(out, "{n} {} waits {accepted}", show(a)).unwrap();
                }
            },
            Ok(Line::End(name)) => match number(name) {
                None => writeln!(out, "{n} refused 21 at 2").unwrap(),
                Some(a) if running[a] == 0 => writeln!(out, "{n} refused 17").unwrap(),
                Some(a) => {
                    doors.leave(a);
                    running[a] -= 1;
                    ended += 1;
                    writeln!(out, "{n} {} out", show(a)).unwrap();
                    while let Some((&key, &b)) = room.iter().find(|&(_, &b)| doors.open(b)) {
                        room.remove(&key);
                        doors.enter(b);
                        running[b] += 1;
                        writeln!(out, "{n} {} in {}", show(b), key.1).unwrap();
                    }
                }
            },
            Ok(Line::Withdraw(ticket)) => match room.iter().find(|&(key, _)| key.1 == ticket).map(|(&key, &a)| (key, a)) {
                None => writeln!(out, "{n} refused 18").unwrap(),
                Some((key, a)) => {
                    room.remove(&key);
                    withdrawn += 1;
                    writeln!(out, "{n} {} gone {ticket}", show(a)).unwrap();
                }
            },
        }
    }
    writeln!(out, "total {accepted} {} {} {ended} {withdrawn}", running.iter().sum::<u64>(), room.len()).unwrap();
}
