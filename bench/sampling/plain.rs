//! The same as `bench sampling` in plain Rust: `plain BINS RECORD WORD ROUNDS`. The bins stand in a plain file (cases.py);
//! a point has an index of cuts with a table of buckets, or its bins are asked one after another where an index would be
//! large; lists of two values are rows of a sorted table; a cross has a row for each product, or, where its bins pick
//! products, keeps the bins of each product that was hit.
use std::collections::HashMap;
use std::env;
use std::fs;

enum Event {
    Set { signal: usize, value: Option<u64> },
    Sample { instance: usize },
}

struct Record {
    signals: usize,
    events: Vec<Event>,
}

struct Reader<'a> {
    rest: &'a [u8],
}

impl Reader<'_> {
    fn take<const N: usize>(&mut self) -> Option<[u8; N]> {
        let (part, rest) = self.rest.split_first_chunk::<N>()?;
        self.rest = rest;
        Some(*part)
    }

    fn u16(&mut self) -> Option<usize> {
        Some(u16::from_be_bytes(self.take()?) as usize)
    }

    fn text(&mut self) -> Option<()> {
        let count = self.u16()?;
        let text = self.rest.get(..count)?;
        if text.iter().any(|byte| *byte < 32 || *byte >= 127) {
            return None;
        }
        self.rest = &self.rest[count..];
        Some(())
    }

    fn event(&mut self, widths: &[u8], instances: usize) -> Option<Event> {
        let [kind] = self.take::<1>()?;
        if kind == 2 {
            let instance = self.u16()?;
            return (instance < instances).then_some(Event::Sample { instance });
        }
        if kind != 1 {
            return None;
        }
        let signal = self.u16()?;
        let width = *widths.get(signal)?;
        match self.take::<1>()? {
            [0] => Some(Event::Set { signal, value: None }),
            [1] => {
                let bits = u64::from_be_bytes(self.take()?);
                (width == 64 || bits >> width == 0).then_some(Event::Set { signal, value: Some(bits) })
            }
            _ => None,
        }
    }
}

fn decode(bytes: &[u8]) -> Option<Record> {
    let mut reader = Reader { rest: bytes };
    if reader.take::<4>()? != *b"CVRC" || reader.u16()? != 1 {
        return None;
    }
    reader.text()?;
    reader.take::<17>()?;
    reader.text()?;
    let mut widths = Vec::new();
    for _ in 0..reader.u16()? {
        reader.text()?;
        let [width, _signed] = reader.take::<2>()?;
        widths.push(width);
    }
    let instances = reader.u16()?;
    for _ in 0..instances {
        reader.text()?;
        reader.text()?;
    }
    let count = u32::from_be_bytes(reader.take()?) as usize;
    let mut events = Vec::with_capacity(count);
    for _ in 0..count {
        events.push(reader.event(&widths, instances)?);
    }
    reader.rest.is_empty().then_some(Record { signals: widths.len(), events })
}

enum Rule {
    Set(Vec<(u64, u64)>),
    Mask(u64, u64),
    List(u64, u64),
}

enum Item {
    Point { signal: usize, bins: Vec<Rule>, first: usize },
    Cross { axes: Vec<usize>, first: usize, sizes: Vec<usize>, picks: Vec<Pick> },
}

/// A bin of a cross: the products whose member of an axis is one of these bins.
struct Pick {
    axis: usize,
    low: u32,
    high: u32,
}

struct Index {
    cuts: Vec<u64>,
    shift: u32,
    starts: Vec<u32>,
    places: Vec<(u32, u32)>,
    flat: Vec<u32>,
}

impl Index {
    fn new(bins: &[Rule]) -> Option<Index> {
        let mut cuts = vec![0];
        for rule in bins {
            let Rule::Set(ranges) = rule else { return None };
            for (low, high) in ranges {
                cuts.push(*low);
                if *high < u64::MAX {
                    cuts.push(high + 1);
                }
            }
        }
        cuts.sort_unstable();
        cuts.dedup();
        let mut rows = vec![Vec::new(); cuts.len()];
        let mut room = 4 * cuts.len() + 65536;
        for (bin, rule) in bins.iter().enumerate() {
            let Rule::Set(ranges) = rule else { return None };
            for (low, high) in ranges {
                let from = cuts.partition_point(|cut| cut < low);
                let to = cuts.partition_point(|cut| cut <= high);
                room = room.checked_sub(to - from)?;
                for row in &mut rows[from..to] {
                    row.push(bin as u32);
                }
            }
        }
        let last = cuts[cuts.len() - 1];
        let most = 4 * bins.len() as u64 + 64;
        let mut shift = 0;
        while last >> shift >= most {
            shift += 1;
        }
        let mut starts = Vec::new();
        let mut segment = 0;
        for bucket in 0..(last >> shift) + 2 {
            while segment + 1 < cuts.len() && cuts[segment + 1] >> shift < bucket || segment + 1 < cuts.len() && cuts[segment + 1] <= bucket << shift {
                segment += 1;
            }
            starts.push(segment as u32);
        }
        let (mut places, mut flat) = (Vec::new(), Vec::new());
        for row in rows {
            let from = flat.len() as u32;
            flat.extend(row);
            places.push((from, flat.len() as u32));
        }
        Some(Index { cuts, shift, starts, places, flat })
    }

    fn hits(&self, v: u64) -> &[u32] {
        let bucket = (v >> self.shift) as usize;
        let (mut base, mut size) = if bucket + 1 < self.starts.len() {
            let low = self.starts[bucket] as usize;
            (low, self.starts[bucket + 1] as usize - low + 1)
        } else {
            (0, self.cuts.len())
        };
        while size > 1 {
            let half = size / 2;
            base += half * ((self.cuts[base + half] as u128).wrapping_sub(v as u128 + 1) >> 127) as usize;
            size -= half;
        }
        let (from, to) = self.places[base];
        &self.flat[from as usize..to as usize]
    }
}

/// A row of two values, the last one first, and the place of its bin.
type Row = (u64, u64, u32);

fn rows_of(bins: &[Rule]) -> Option<Vec<Row>> {
    let mut rows = Vec::new();
    for (place, rule) in bins.iter().enumerate() {
        let Rule::List(from, to) = rule else { return None };
        rows.push((*to, *from, place as u32));
    }
    rows.sort_unstable();
    Some(rows)
}

enum Plan {
    Index(Index),
    Lists(Vec<Row>),
    Scan,
    Cross(Vec<u32>),
    Picks,
}

/// What an item keeps: the value before; of a cross whose bins pick products, the bins of those that were hit, and for
/// each bin the number of the sample at which it was hit last.
#[derive(Clone, Default)]
struct State {
    before: Option<u64>,
    known: HashMap<u32, Vec<u32>>,
    stamps: Vec<u32>,
    samples: u32,
}

fn bins_of(item: &Item) -> usize {
    match item {
        Item::Point { bins, .. } => bins.len(),
        Item::Cross { sizes, picks, .. } if picks.is_empty() => sizes.iter().product(),
        Item::Cross { picks, .. } => picks.len(),
    }
}

fn read_bins(text: &str) -> Option<(usize, Vec<Item>, usize)> {
    let (mut instances, mut items, mut first) = (1, Vec::new(), 0);
    let mut lines = text.lines().peekable();
    while let Some(line) = lines.next() {
        let words: Vec<&str> = line.split(' ').collect();
        match words[0] {
            "instances" => instances = words[1].parse().ok()?,
            "point" => {
                let count: usize = words[2].parse().ok()?;
                let mut bins = Vec::new();
                for _ in 0..count {
                    let words: Vec<&str> = lines.next()?.split(' ').collect();
                    let numbers: Vec<u64> = words[1..].iter().map(|word| word.parse().ok()).collect::<Option<_>>()?;
                    bins.push(match words[0] {
                        "set" => Rule::Set(numbers.chunks(2).map(|pair| (pair[0], pair[1])).collect()),
                        "mask" => Rule::Mask(numbers[0], numbers[1]),
                        _ => Rule::List(numbers[0], numbers[1]),
                    });
                }
                items.push(Item::Point { signal: words[1].parse().ok()?, bins, first });
                first += count;
            }
            _ => {
                let axes: Vec<usize> = words[1..].iter().map(|word| word.parse().ok()).collect::<Option<_>>()?;
                let sizes: Vec<usize> = axes.iter().map(|axis| bins_of(&items[*axis])).collect();
                let mut picks = Vec::new();
                while let Some(line) = lines.next_if(|line| line.starts_with("pick")) {
                    let numbers: Vec<u32> = line.split(' ').skip(1).map(|word| word.parse().ok()).collect::<Option<_>>()?;
                    picks.push(Pick { axis: numbers[0] as usize, low: numbers[1], high: numbers[2] });
                }
                items.push(Item::Cross { axes, first, sizes, picks });
                first += bins_of(&items[items.len() - 1]);
            }
        }
    }
    Some((instances, items, first))
}

fn plan(items: &[Item]) -> Vec<Plan> {
    items
        .iter()
        .map(|item| match item {
            Item::Point { bins, .. } => match (Index::new(bins), rows_of(bins)) {
                (Some(index), _) => Plan::Index(index),
                (None, Some(rows)) => Plan::Lists(rows),
                (None, None) => Plan::Scan,
            },
            Item::Cross { sizes, picks, .. } if picks.is_empty() => Plan::Cross((0..sizes.iter().product::<usize>() as u32).collect()),
            Item::Cross { .. } => Plan::Picks,
        })
        .collect()
}

fn met(rule: &Rule, value: u64) -> bool {
    match rule {
        Rule::Set(ranges) => ranges.iter().any(|(low, high)| *low <= value && value <= *high),
        Rule::Mask(mask, bits) => value & mask == *bits,
        Rule::List(..) => false,
    }
}

fn sample_point(plan: &Plan, bins: &[Rule], first: usize, value: Option<u64>, state: &mut State, counts: &mut [u64], row: &mut Vec<u32>) {
    row.clear();
    let before = std::mem::replace(&mut state.before, value);
    let Some(value) = value else { return };
    match plan {
        Plan::Index(index) => row.extend_from_slice(index.hits(value)),
        Plan::Lists(rows) => {
            let Some(before) = before else { return };
            let from = rows.partition_point(|(last, first, _)| (*last, *first) < (value, before));
            let to = from + rows[from..].partition_point(|(last, first, _)| (*last, *first) <= (value, before));
            row.extend(rows[from..to].iter().map(|(_, _, place)| *place));
        }
        _ => {
            for (bin, rule) in bins.iter().enumerate() {
                if met(rule, value) {
                    row.push(bin as u32);
                }
            }
        }
    }
    for bin in row.iter() {
        counts[first + *bin as usize] += 1;
    }
}

/// The picks that have the product of this number.
fn picked(sizes: &[usize], picks: &[Pick], number: u32) -> Vec<u32> {
    let mut members = vec![0; sizes.len()];
    let mut left = number as usize;
    for (member, size) in members.iter_mut().zip(sizes).rev() {
        *member = (left % size) as u32;
        left /= size;
    }
    (0..picks.len() as u32).filter(|&k| {
        let pick = &picks[k as usize];
        pick.low <= members[pick.axis] && members[pick.axis] <= pick.high
    }).collect()
}

fn add_picks(sizes: &[usize], picks: &[Pick], numbers: &[u32], state: &mut State, counts: &mut [u64]) {
    state.samples += 1;
    for number in numbers {
        for bin in state.known.entry(*number).or_insert_with(|| picked(sizes, picks, *number)).iter() {
            let bin = *bin as usize;
            if state.stamps[bin] != state.samples {
                state.stamps[bin] = state.samples;
                counts[bin] += 1;
            }
        }
    }
}

fn count(instances: usize, items: &[Item], bins: usize, plans: &[Plan], record: &Record) -> Vec<u64> {
    let mut counts = vec![0; instances * bins];
    let mut values = vec![None; record.signals];
    let states: Vec<State> = items
        .iter()
        .map(|item| match item {
            Item::Point { .. } => State::default(),
            Item::Cross { picks, .. } => State { stamps: vec![0; picks.len()], ..State::default() },
        })
        .collect();
    let mut kept = vec![states; instances];
    let mut rows = vec![vec![Vec::new(); items.len()]; instances];
    let (mut numbers, mut spare) = (Vec::new(), Vec::new());
    for event in &record.events {
        match event {
            Event::Set { signal, value } => values[*signal] = *value,
            Event::Sample { instance } => {
                let counts = &mut counts[instance * bins..(instance + 1) * bins];
                for (k, item) in items.iter().enumerate() {
                    match item {
                        Item::Point { signal, bins, first } => {
                            sample_point(&plans[k], bins, *first, values[*signal], &mut kept[*instance][k], counts, &mut rows[*instance][k]);
                        }
                        Item::Cross { axes, first, sizes, picks } => {
                            numbers.clear();
                            numbers.push(0);
                            for (axis, size) in axes.iter().zip(sizes) {
                                spare.clear();
                                for number in &numbers {
                                    spare.extend(rows[*instance][*axis].iter().map(|bin| number * *size as u32 + bin));
                                }
                                std::mem::swap(&mut numbers, &mut spare);
                            }
                            match &plans[k] {
                                Plan::Cross(table) => {
                                    for number in &numbers {
                                        counts[first + table[*number as usize] as usize] += 1;
                                    }
                                }
                                _ => add_picks(sizes, picks, &numbers, &mut kept[*instance][k], &mut counts[*first..]),
                            }
                        }
                    }
                }
            }
        }
    }
    counts
}

fn sum_of(counts: &[u64]) -> u64 {
    counts.iter().enumerate().fold(0, |sum: u64, (number, count)| sum.wrapping_add(count.wrapping_mul(number as u64 + 1)))
}

fn measured() -> Option<(usize, u64)> {
    let words: Vec<String> = env::args().collect();
    let (instances, items, bins) = read_bins(&fs::read_to_string(words.get(1)?).ok()?)?;
    let bytes = fs::read(words.get(2)?).ok()?;
    let rounds: u32 = words.get(4)?.parse().ok()?;
    let record = decode(&bytes)?;
    let mut sum = 0;
    match words.get(3)?.as_str() {
        "plan" => {
            for _ in 0..rounds {
                std::hint::black_box(plan(&items));
            }
        }
        "decode" => {
            for _ in 0..rounds {
                std::hint::black_box(decode(&bytes)?);
            }
        }
        "count" => {
            let plans = plan(&items);
            for _ in 0..rounds {
                sum = sum_of(&count(instances, &items, bins, &plans, &record));
            }
        }
        "whole" => {
            for _ in 0..rounds {
                let record = decode(&bytes)?;
                let plans = plan(&items);
                sum = count(instances, &items, bins, &plans, &record).iter().filter(|count| **count > 0).count() as u64;
            }
        }
        _ => return None,
    }
    Some((instances * bins, sum))
}

fn main() {
    match measured() {
        Some((bins, sum)) => println!("{bins} {sum}"),
        None => println!("plain BINS RECORD WORD ROUNDS"),
    }
}
