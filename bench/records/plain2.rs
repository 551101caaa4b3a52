//! The same as `bench records` in plain Rust at records of version 2, with the same checks, refusals and lists:
//! `plain FILE READS WRITES`.
use std::env;
use std::fs;

#[derive(Debug)]
#[allow(dead_code)]
pub enum Fault {
    Short(usize),
    BadMagic,
    BadVersion(u16),
    BadField(usize),
    TooManyEvents(u32),
    Trailing(usize),
}

pub struct SignalRow {
    name: Vec<u8>,
    width: u8,
    signed: bool,
}

pub struct ArgRow {
    width: u8,
    signed: bool,
}

pub struct InstRow {
    name: Vec<u8>,
    group: Vec<u8>,
    args: Vec<ArgRow>,
}

pub enum Event {
    Set { signal: u16, value: Option<u64> },
    Sample { instance: u16, args: Vec<Option<u64>> },
}

pub struct Record {
    id: Vec<u8>,
    status: u8,
    seed: u64,
    time: u64,
    user: Vec<u8>,
    signals: Vec<SignalRow>,
    instances: Vec<InstRow>,
    events: Vec<Event>,
}

struct Reader<'a> {
    rest: &'a [u8],
    total: usize,
}

impl<'a> Reader<'a> {
    #[inline(always)]
    fn at(&self) -> usize {
        self.total - self.rest.len()
    }

    fn take<const N: usize>(&mut self) -> Result<[u8; N], Fault> {
        let Some((part, rest)) = self.rest.split_first_chunk::<N>() else {
            return Err(Fault::Short(self.at()));
        };
        self.rest = rest;
        Ok(*part)
    }

    fn u16(&mut self) -> Result<u16, Fault> {
        Ok(u16::from_be_bytes(self.take()?))
    }

    fn u32(&mut self) -> Result<u32, Fault> {
        Ok(u32::from_be_bytes(self.take()?))
    }

    fn u64(&mut self) -> Result<u64, Fault> {
        Ok(u64::from_be_bytes(self.take()?))
    }

    fn u8_within(&mut self, least: u8, limit: u8) -> Result<u8, Fault> {
        let at = self.at();
        let [number] = self.take::<1>()?;
        if number < least || number >= limit {
            return Err(Fault::BadField(at));
        }
        Ok(number)
    }

    fn u16_within(&mut self, least: u16, limit: u16) -> Result<u16, Fault> {
        let at = self.at();
        let number = self.u16()?;
        if number < least || number >= limit {
            return Err(Fault::BadField(at));
        }
        Ok(number)
    }

    fn text(&mut self, least: u16, most: u16, low: u8) -> Result<Vec<u8>, Fault> {
        let at = self.at();
        let count = self.u16_within(least, most + 1)? as usize;
        let Some(text) = self.rest.get(..count) else {
            return Err(Fault::Short(at));
        };
        if let Some(bad) = text.iter().position(|byte| *byte < low || *byte >= 127) {
            return Err(Fault::BadField(self.at() + bad));
        }
        self.rest = &self.rest[count..];
        Ok(text.to_vec())
    }

    fn form(&mut self) -> Result<ArgRow, Fault> {
        Ok(ArgRow { width: self.u8_within(1, 65)?, signed: self.u8_within(0, 2)? == 1 })
    }

    fn instance(&mut self) -> Result<InstRow, Fault> {
        let name = self.text(1, 1024, 33)?;
        let group = self.text(1, 1024, 33)?;
        let count = self.u8_within(0, 17)?;
        let mut args = Vec::with_capacity(count as usize);
        for _ in 0..count {
            args.push(self.form()?);
        }
        Ok(InstRow { name, group, args })
    }

    #[inline]
    fn value(&mut self, width: u8) -> Result<Option<u64>, Fault> {
        if self.u8_within(0, 2)? == 0 {
            return Ok(None);
        }
        let at = self.at();
        let bits = self.u64()?;
        if width < 64 && bits >> width != 0 {
            return Err(Fault::BadField(at));
        }
        Ok(Some(bits))
    }

    fn event(&mut self, signals: &[SignalRow], instances: &[InstRow]) -> Result<Event, Fault> {
        if self.u8_within(1, 3)? == 2 {
            let at = self.at();
            let instance = self.u16()?;
            let Some(row) = instances.get(instance as usize) else {
                return Err(Fault::BadField(at));
            };
            let mut args = Vec::with_capacity(row.args.len());
            for arg in &row.args {
                args.push(self.value(arg.width)?);
            }
            return Ok(Event::Sample { instance, args });
        }
        let at = self.at();
        let signal = self.u16()?;
        let Some(row) = signals.get(signal as usize) else {
            return Err(Fault::BadField(at));
        };
        let value = self.value(row.width)?;
        Ok(Event::Set { signal, value })
    }
}

#[inline(never)]
pub fn decode(bytes: &[u8]) -> Result<Record, Fault> {
    let mut reader = Reader { rest: bytes, total: bytes.len() };
    if reader.u32()? != 0x4356_5243 {
        return Err(Fault::BadMagic);
    }
    let version = reader.u16()?;
    if version != 2 {
        return Err(Fault::BadVersion(version));
    }
    let id = reader.text(1, 255, 33)?;
    let status = reader.u8_within(0, 4)?;
    let seed = reader.u64()?;
    let time = reader.u64()?;
    let user = reader.text(0, 255, 32)?;
    let mut signals = Vec::new();
    for _ in 0..reader.u16_within(0, 4097)? {
        let name = reader.text(1, 1024, 33)?;
        let form = reader.form()?;
        signals.push(SignalRow { name, width: form.width, signed: form.signed });
    }
    let mut instances = Vec::new();
    for _ in 0..reader.u16_within(0, 1025)? {
        instances.push(reader.instance()?);
    }
    let count = reader.u32()?;
    if count > 1_048_576 {
        return Err(Fault::TooManyEvents(count));
    }
    let mut events = Vec::new();
    for _ in 0..count {
        events.push(reader.event(&signals, &instances)?);
    }
    if !reader.rest.is_empty() {
        return Err(Fault::Trailing(reader.at()));
    }
    Ok(Record { id, status, seed, time, user, signals, instances, events })
}

fn append_text(out: &mut Vec<u8>, text: &[u8]) {
    out.extend_from_slice(&(text.len() as u16).to_be_bytes());
    out.extend_from_slice(text);
}

fn append_value(out: &mut Vec<u8>, value: Option<u64>) {
    match value {
        None => out.push(0),
        Some(bits) => {
            out.push(1);
            out.extend_from_slice(&bits.to_be_bytes());
        }
    }
}

fn append_event(out: &mut Vec<u8>, event: &Event) {
    match event {
        Event::Set { signal, value } => {
            let [high, low] = signal.to_be_bytes();
            match value {
                None => out.extend_from_slice(&[1, high, low, 0]),
                Some(bits) => {
                    out.extend_from_slice(&[1, high, low, 1]);
                    out.extend_from_slice(&bits.to_be_bytes());
                }
            }
        }
        Event::Sample { instance, args } => {
            let [high, low] = instance.to_be_bytes();
            out.extend_from_slice(&[2, high, low]);
            for arg in args {
                append_value(out, *arg);
            }
        }
    }
}

#[inline(never)]
pub fn encode(record: &Record) -> Vec<u8> {
    let mut out = Vec::new();
    out.extend_from_slice(b"CVRC\0\x02");
    append_text(&mut out, &record.id);
    out.push(record.status);
    out.extend_from_slice(&record.seed.to_be_bytes());
    out.extend_from_slice(&record.time.to_be_bytes());
    append_text(&mut out, &record.user);
    out.extend_from_slice(&(record.signals.len() as u16).to_be_bytes());
    for row in &record.signals {
        append_text(&mut out, &row.name);
        out.extend_from_slice(&[row.width, row.signed as u8]);
    }
    out.extend_from_slice(&(record.instances.len() as u16).to_be_bytes());
    for row in &record.instances {
        append_text(&mut out, &row.name);
        append_text(&mut out, &row.group);
        out.push(row.args.len() as u8);
        for arg in &row.args {
            out.extend_from_slice(&[arg.width, arg.signed as u8]);
        }
    }
    out.extend_from_slice(&(record.events.len() as u32).to_be_bytes());
    for event in &record.events {
        append_event(&mut out, event);
    }
    out
}

fn main() {
    let words: Vec<String> = env::args().skip(1).collect();
    let bytes = fs::read(&words[0]).expect("a file");
    let reads: u32 = words[1].parse().expect("a number of reads");
    let writes: u32 = words[2].parse().expect("a number of writes");
    for _ in 0..reads {
        std::hint::black_box(decode(&bytes).expect("a record"));
    }
    let record = decode(&bytes).expect("a record");
    for _ in 0..writes {
        std::hint::black_box(encode(&record));
    }
    println!("{}", record.events.len());
}
