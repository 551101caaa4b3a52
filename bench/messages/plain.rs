//! The same as `bench messages` in plain Rust, with the same checks: `plain ROWS WRITES READS`.
use std::env;

#[derive(Clone, Copy)]
#[repr(u8)]
pub enum Kind {
    Cvg,
    Illegal,
    Ignore,
    Default,
}

pub struct Row {
    bin: u32,
    kind: Kind,
    excluded: bool,
    count: u64,
}

pub struct Rows {
    point: u64,
    total: u32,
    rows: Vec<Row>,
}

fn after(number: u64) -> u64 {
    number
        .wrapping_mul(6_364_136_223_846_793_005)
        .wrapping_add(1_442_695_040_888_963_407)
}

fn kind_of(number: u64) -> Kind {
    match number {
        0 => Kind::Cvg,
        1 => Kind::Illegal,
        2 => Kind::Ignore,
        _ => Kind::Default,
    }
}

fn rows_of(count: u32) -> Vec<Row> {
    let mut number = 1u64;
    let mut rows = Vec::new();
    for bin in 0..count {
        number = after(number);
        rows.push(Row { bin, kind: kind_of(number >> 62), excluded: number & 1 == 1, count: number >> 8 });
    }
    rows
}

#[inline(never)]
fn write(reply: &Rows, out: &mut Vec<u8>) {
    out.clear();
    let size = 13 + 14 * reply.rows.len();
    out.extend_from_slice(&(size as u32).to_be_bytes());
    out.push(0x84);
    out.extend_from_slice(&reply.point.to_be_bytes());
    out.extend_from_slice(&reply.total.to_be_bytes());
    for row in &reply.rows {
        let [a, b, c, d] = row.bin.to_be_bytes();
        let [e, f, g, h, i, j, k, l] = row.count.to_be_bytes();
        out.extend_from_slice(&[a, b, c, d, row.kind as u8, row.excluded as u8, e, f, g, h, i, j, k, l]);
    }
}

/// The rows of a body, or the place of its first fault.
#[inline(never)]
fn read(body: &[u8]) -> Result<Rows, usize> {
    let total = body.len();
    let Some((&[0x84], rest)) = body.split_first_chunk::<1>() else {
        return Err(0);
    };
    let (point, rest) = rest.split_first_chunk::<8>().ok_or(total - rest.len())?;
    let (count, mut rest) = rest.split_first_chunk::<4>().ok_or(total - rest.len())?;
    let mut rows = Vec::new();
    while !rest.is_empty() {
        let (bin, after) = rest.split_first_chunk::<4>().ok_or(total - rest.len())?;
        let (kind, behind) = after.split_first_chunk::<1>().ok_or(total - after.len())?;
        if kind[0] >= 4 {
            return Err(total - after.len());
        }
        let (excluded, last) = behind.split_first_chunk::<1>().ok_or(total - behind.len())?;
        if excluded[0] >= 2 {
            return Err(total - behind.len());
        }
        let (number, next) = last.split_first_chunk::<8>().ok_or(total - last.len())?;
        rows.push(Row {
            bin: u32::from_be_bytes(*bin),
            kind: kind_of(u64::from(kind[0])),
            excluded: excluded[0] == 1,
            count: u64::from_be_bytes(*number),
        });
        rest = next;
    }
    Ok(Rows { point: u64::from_be_bytes(*point), total: u32::from_be_bytes(*count), rows })
}

fn main() {
    let words: Vec<u32> = env::args().skip(1).filter_map(|word| word.parse().ok()).collect();
    let (count, writes, reads) = (words[0], words[1], words[2]);
    let rows = rows_of(count);
    let mut out = Vec::with_capacity(17 + 14 * rows.len());
    let reply = Rows { point: 1, total: count, rows };
    for _ in 0..writes {
        write(&reply, &mut out);
    }
    for _ in 0..reads {
        read(&out[4..]).unwrap();
    }
    let sum = out.iter().fold(0, |sum, byte| after(sum ^ u64::from(*byte)));
    println!("{} {}", out.len(), sum);
}
