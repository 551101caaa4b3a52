//! The same as `bench dumps` in plain Rust, with the same checks, refusals and counts of events, for the designs of
//! dumps.py alone: `plain DESIGN DUMP SCOPE READS RECORDS`.
use std::collections::HashMap;
use std::env;
use std::fs;

#[derive(Debug)]
#[allow(dead_code)]
pub enum Fault {
    Syntax(usize),
    TimeBack(usize),
    UnknownCode(usize),
}

#[derive(Clone, Copy)]
pub enum Bit {
    Zero,
    One,
    X,
    Z,
}

#[allow(dead_code)]
pub struct Var {
    scope: Vec<u8>,
    name: Vec<u8>,
    width: u32,
    selected: bool,
    code: u32,
}

#[derive(Clone, Copy)]
#[allow(dead_code)]
pub struct Change {
    code: u32,
    value: Option<u64>,
    low: Bit,
}

#[allow(dead_code)]
pub struct Step {
    time: u64,
    changes: Vec<Change>,
}

pub struct Dump {
    vars: Vec<Var>,
    steps: Vec<Step>,
}

struct Words<'a> {
    bytes: &'a [u8],
    at: usize,
}

fn is_blank(byte: u8) -> bool {
    matches!(byte, b' ' | b'\t' | b'\n' | b'\r')
}

impl<'a> Words<'a> {
    #[inline(always)]
    fn next(&mut self) -> Option<(usize, &'a [u8])> {
        let mut at = self.at;
        while at < self.bytes.len() && is_blank(self.bytes[at]) {
            at += 1;
        }
        let from = at;
        while at < self.bytes.len() && !is_blank(self.bytes[at]) {
            at += 1;
        }
        self.at = at;
        (at > from).then(|| (from, &self.bytes[from..at]))
    }

    /// The next word but `$end`.
    fn part(&mut self) -> Result<(usize, &'a [u8]), Fault> {
        match self.next() {
            None => Err(Fault::Syntax(self.bytes.len())),
            Some((at, b"$end")) => Err(Fault::Syntax(at)),
            Some(word) => Ok(word),
        }
    }

    fn end(&mut self) -> Result<(), Fault> {
        match self.next() {
            None => Err(Fault::Syntax(self.bytes.len())),
            Some((_, b"$end")) => Ok(()),
            Some((at, _)) => Err(Fault::Syntax(at)),
        }
    }

    fn skip(&mut self) -> Result<(), Fault> {
        loop {
            match self.next() {
                None => return Err(Fault::Syntax(self.bytes.len())),
                Some((_, b"$end")) => return Ok(()),
                Some(_) => {}
            }
        }
    }
}

fn decimal(text: &[u8]) -> Option<u64> {
    if text.is_empty() {
        return None;
    }
    let mut number = 0u64;
    for byte in text {
        if !byte.is_ascii_digit() {
            return None;
        }
        number = number.checked_mul(10)?.checked_add((byte - b'0') as u64)?;
    }
    Some(number)
}

fn is_index(text: &[u8]) -> bool {
    text.len() > 2
        && text[0] == b'['
        && text[text.len() - 1] == b']'
        && text[1..text.len() - 1].iter().all(u8::is_ascii_digit)
}

fn is_digit(byte: u8) -> bool {
    matches!(byte, b'0' | b'1' | b'x' | b'X' | b'z' | b'Z')
}

fn change(code: (u32, u32), digits: &[u8]) -> Change {
    let cut = digits.len().saturating_sub(code.1 as usize);
    let mut value = Some(0u64);
    for byte in &digits[cut..] {
        value = match (byte, value) {
            (b'0' | b'1', Some(number)) if number >> 63 == 0 => Some(number << 1 | (byte - b'0') as u64),
            _ => None,
        };
    }
    let low = match digits[digits.len() - 1] {
        b'0' => Bit::Zero,
        b'1' => Bit::One,
        b'z' | b'Z' => Bit::Z,
        _ => Bit::X,
    };
    Change { code: code.0, value, low }
}

struct Header<'a> {
    vars: Vec<Var>,
    codes: HashMap<&'a [u8], (u32, u32)>,
}

fn var<'a>(words: &mut Words<'a>, scopes: &[Vec<u8>], header: &mut Header<'a>) -> Result<(), Fault> {
    words.part()?;
    let (at, size) = words.part()?;
    let width = match decimal(size) {
        Some(width) if width > 0 && width < 1 << 32 => width as u32,
        _ => return Err(Fault::Syntax(at)),
    };
    let (_, letters) = words.part()?;
    let number = header.codes.len() as u32;
    let code = *header.codes.entry(letters).or_insert((number, width));
    let (_, reference) = words.part()?;
    let bracket = reference.iter().position(|byte| *byte == b'[').unwrap_or(reference.len());
    let mut selected = is_index(&reference[bracket..]);
    match words.next() {
        None => return Err(Fault::Syntax(words.bytes.len())),
        Some((_, b"$end")) => {}
        Some((_, select)) if select[0] == b'[' => {
            selected |= is_index(select);
            words.end()?;
        }
        Some((at, _)) => return Err(Fault::Syntax(at)),
    }
    header.vars.push(Var {
        scope: scopes.last().cloned().unwrap_or(b".".to_vec()),
        name: reference[..bracket].to_vec(),
        width: code.1,
        selected,
        code: code.0,
    });
    Ok(())
}

fn header<'a>(words: &mut Words<'a>) -> Result<Header<'a>, Fault> {
    let mut header = Header { vars: Vec::new(), codes: HashMap::new() };
    let mut scopes: Vec<Vec<u8>> = Vec::new();
    loop {
        let Some((at, word)) = words.next() else {
            return Err(Fault::Syntax(words.bytes.len()));
        };
        match word {
            b"$date" | b"$version" | b"$timescale" | b"$comment" => words.skip()?,
            b"$scope" => {
                words.part()?;
                let (_, name) = words.part()?;
                words.end()?;
                scopes.push(match scopes.last() {
                    Some(outer) => [outer.as_slice(), b".", name].concat(),
                    None => name.to_vec(),
                });
            }
            b"$upscope" => {
                if scopes.pop().is_none() {
                    return Err(Fault::Syntax(at));
                }
                words.end()?;
            }
            b"$var" => var(words, &scopes, &mut header)?,
            b"$enddefinitions" if scopes.is_empty() => {
                words.end()?;
                return Ok(header);
            }
            _ => return Err(Fault::Syntax(at)),
        }
    }
}

fn steps<'a>(words: &mut Words<'a>, codes: &HashMap<&'a [u8], (u32, u32)>) -> Result<Vec<Step>, Fault> {
    let mut steps: Vec<Step> = Vec::new();
    let mut open: Option<Step> = None;
    while let Some((at, word)) = words.next() {
        match word[0] {
            b'#' => {
                let Some(time) = decimal(&word[1..]) else {
                    return Err(Fault::Syntax(at));
                };
                match &open {
                    Some(step) if time < step.time => return Err(Fault::TimeBack(at)),
                    Some(step) if time == step.time => {}
                    _ => steps.extend(open.replace(Step { time, changes: Vec::new() })),
                }
            }
            digit if is_digit(digit) => {
                if word.len() < 2 {
                    return Err(Fault::Syntax(at));
                }
                let Some(code) = codes.get(&word[1..]) else {
                    return Err(Fault::UnknownCode(at));
                };
                open.get_or_insert(Step { time: 0, changes: Vec::new() }).changes.push(change(*code, &word[..1]));
            }
            b'b' | b'B' => {
                let digits = &word[1..];
                if digits.is_empty() || !digits.iter().all(|byte| is_digit(*byte)) {
                    return Err(Fault::Syntax(at));
                }
                let (at, letters) = words.part()?;
                let Some(code) = codes.get(letters) else {
                    return Err(Fault::UnknownCode(at));
                };
                open.get_or_insert(Step { time: 0, changes: Vec::new() }).changes.push(change(*code, digits));
            }
            b'r' | b'R' | b's' | b'S' => {
                words.part()?;
            }
            _ => match word {
                b"$end" | b"$dumpvars" | b"$dumpall" | b"$dumpon" | b"$dumpoff" => {}
                b"$comment" => words.skip()?,
                _ => return Err(Fault::Syntax(at)),
            },
        }
    }
    steps.extend(open);
    Ok(steps)
}

#[inline(never)]
pub fn read_dump(bytes: &[u8]) -> Result<Dump, Fault> {
    let mut words = Words { bytes, at: 0 };
    let header = header(&mut words)?;
    let steps = steps(&mut words, &header.codes)?;
    Ok(Dump { vars: header.vars, steps })
}

#[derive(Clone, Copy)]
struct Held {
    value: Option<u64>,
    low: Bit,
}

#[allow(dead_code)]
enum Event {
    Set { signal: u16, value: Option<u64> },
    Sample { instance: u16 },
}

/// The variables of the scope by their names: clk, and s0 to s15.
fn codes(dump: &Dump, scope: &[u8]) -> Option<Vec<usize>> {
    let mut codes = HashMap::new();
    for var in &dump.vars {
        if var.scope == scope && !var.selected {
            codes.entry(var.name.as_slice()).or_insert(var.code as usize);
        }
    }
    let mut found = vec![*codes.get(b"clk".as_slice())?];
    for number in 0..16 {
        found.push(*codes.get(format!("s{number}").as_bytes())?);
    }
    Some(found)
}

/// The events of a record: Sets and a Sample at each `posedge clk` at which s0 to s3 were below a bound.
#[inline(never)]
fn events_of(dump: &Dump, scope: &[u8], below: u64) -> Option<Vec<Event>> {
    let codes = codes(dump, scope)?;
    let unknown = Held { value: None, low: Bit::X };
    let mut table = vec![unknown; codes.iter().max()? + 1];
    let mut last = vec![None; codes.len()];
    let mut events = Vec::new();
    let mut values = Vec::new();
    for (number, step) in dump.steps.iter().enumerate() {
        let before = table[codes[0]];
        values.clear();
        values.extend(codes.iter().map(|code| table[*code].value));
        for change in &step.changes {
            if let Some(held) = table.get_mut(change.code as usize) {
                *held = Held { value: change.value, low: change.low };
            }
        }
        let rises = match (before.low, table[codes[0]].low) {
            (Bit::Zero, Bit::Zero) => false,
            (Bit::Zero, _) => true,
            (Bit::X | Bit::Z, after) => matches!(after, Bit::One),
            (Bit::One, _) => false,
        };
        if number == 0 || !rises || !values[1..5].iter().all(|value| value.is_some_and(|value| value < below)) {
            continue;
        }
        for (signal, value) in values.iter().enumerate() {
            if *value != last[signal] {
                events.push(Event::Set { signal: signal as u16, value: *value });
                last[signal] = *value;
            }
        }
        events.push(Event::Sample { instance: 0 });
    }
    Some(events)
}

/// The bound that a design of dumps.py compares with.
fn bound(text: &str) -> u64 {
    let behind = text.split("s0 < ").nth(1).unwrap();
    behind.chars().take_while(char::is_ascii_digit).collect::<String>().parse().unwrap()
}

fn main() {
    let words: Vec<String> = env::args().collect();
    let below = bound(&fs::read_to_string(&words[1]).unwrap());
    let bytes = fs::read(&words[2]).unwrap();
    let reads: u32 = words[4].parse().unwrap();
    let records: u32 = words[5].parse().unwrap();
    for _ in 0..reads {
        read_dump(&bytes).unwrap();
    }
    let mut events = 0;
    for _ in 0..records {
        let dump = read_dump(&bytes).unwrap();
        events = events_of(&dump, words[3].as_bytes(), below).unwrap().len();
    }
    println!("{events}");
}
