//! The same as `bench lexing` in plain Rust, with the same tokens and the same checks of keywords, names and literals, the
//! form of each literal included:
//! `scan FILE ROUNDS`.
use std::env;
use std::fs;

#[derive(Clone, Copy, PartialEq)]
#[allow(dead_code)]
enum Kind {
    Ident,
    Keyword,
    System,
    Decimal,
    Based,
    Text,
    Operator,
    NotSupported,
}

#[derive(Clone, Copy)]
#[allow(dead_code)]
struct Token {
    kind: Kind,
    /// Which word or operator it is: the first byte and the place behind those that begin with it, or 0.
    spelled: u16,
    at: u32,
    len: u32,
}

fn spelled(first: u8, place: usize) -> u16 {
    u16::from(first) << 8 | place as u16
}

#[allow(dead_code)]
struct Literal {
    width: u8,
    sized: bool,
    signed: bool,
    bits: u64,
    free: u64,
}

fn keyword(text: &[u8]) -> Option<u16> {
    let words: &[&[u8]] = match text[0] {
        b'b' => &[b"bit", b"byte", b"bins", b"binsof"],
        b'c' => &[b"covergroup", b"coverpoint", b"cross", b"class"],
        b'd' => &[b"default"],
        b'e' => &[b"enum", b"endgroup", b"edge", b"extends"],
        b'f' => &[b"function"],
        b'i' => &[
            b"int",
            b"integer",
            b"illegal_bins",
            b"ignore_bins",
            b"iff",
            b"intersect",
            b"input",
            b"interface",
            b"inside",
        ],
        b'l' => &[b"logic", b"longint", b"localparam"],
        b'm' => &[b"module", b"matches"],
        b'n' => &[b"new", b"negedge"],
        b'o' => &[b"or", b"option"],
        b'p' => &[b"posedge", b"program", b"package", b"parameter"],
        b'r' => &[b"reg", b"ref", b"real"],
        b's' => &[b"shortint", b"signed", b"sequence", b"shortreal", b"string"],
        b't' => &[b"typedef", b"type_option", b"time"],
        b'u' => &[b"unsigned"],
        b'w' => &[b"wildcard", b"with"],
        _ => &[],
    };
    let place = words.iter().position(|word| *word == text)?;
    Some(spelled(text[0], place))
}

fn operators(first: u8) -> &'static [(&'static [u8], Kind)] {
    use Kind::{NotSupported, Operator};
    match first {
        b'=' => &[
            (b"===", NotSupported),
            (b"==?", NotSupported),
            (b"==", Operator),
            (b"=>", Operator),
            (b"=", Operator),
        ],
        b'!' => &[(b"!==", NotSupported), (b"!=?", NotSupported), (b"!=", Operator), (b"!", Operator)],
        b'<' => &[(b"<<<", Operator), (b"<<", Operator), (b"<=", Operator), (b"<", Operator)],
        b'>' => &[(b">>>", Operator), (b">>", Operator), (b">=", Operator), (b">", Operator)],
        b'-' => &[(b"->", Operator), (b"--", NotSupported), (b"-", Operator)],
        b'&' => &[(b"&&", Operator), (b"&", Operator)],
        b'|' => &[(b"||", Operator), (b"|", Operator)],
        b'~' => &[(b"~&", Operator), (b"~|", Operator), (b"~^", Operator), (b"~", Operator)],
        b'^' => &[(b"^~", Operator), (b"^", Operator)],
        b'@' => &[(b"@@", NotSupported), (b"@", Operator)],
        b'*' => &[(b"**", NotSupported), (b"*", Operator)],
        b'+' => &[(b"++", NotSupported), (b"+", Operator)],
        b':' => &[(b"::", NotSupported), (b":", Operator)],
        b'(' => &[(b"(", Operator)],
        b')' => &[(b")", Operator)],
        b'[' => &[(b"[", Operator)],
        b']' => &[(b"]", Operator)],
        b'{' => &[(b"{", Operator)],
        b'}' => &[(b"}", Operator)],
        b',' => &[(b",", Operator)],
        b';' => &[(b";", Operator)],
        b'.' => &[(b".", Operator)],
        b'/' => &[(b"/", Operator)],
        b'%' => &[(b"%", Operator)],
        b'?' => &[(b"?", Operator)],
        b'$' => &[(b"$", Operator)],
        b'#' => &[(b"#", NotSupported)],
        b'\'' => &[(b"'", NotSupported)],
        _ => &[],
    }
}

fn run(text: &[u8], from: usize, test: impl Fn(u8) -> bool) -> usize {
    text[from..].iter().position(|byte| !test(*byte)).map_or(text.len(), |count| from + count)
}

fn byte_at(text: &[u8], at: usize) -> u8 {
    text.get(at).copied().unwrap_or(0)
}

fn is_word(byte: u8) -> bool {
    byte.is_ascii_alphanumeric() || byte == b'_' || byte == b'$'
}

fn is_number(byte: u8) -> bool {
    byte.is_ascii_digit() || byte == b'_'
}

fn is_unknown(byte: u8) -> bool {
    matches!(byte, b'x' | b'X' | b'z' | b'Z' | b'?')
}

fn is_gap(byte: u8) -> bool {
    byte == b' ' || byte == b'_'
}

/// The radix of a base letter.
fn radix(letter: u8) -> Option<u8> {
    match letter {
        b'b' | b'B' => Some(2),
        b'o' | b'O' => Some(8),
        b'd' | b'D' => Some(10),
        b'h' | b'H' => Some(16),
        _ => None,
    }
}

fn is_digit_of(radix: u8, byte: u8) -> bool {
    match radix {
        10 => byte.is_ascii_digit(),
        2 => matches!(byte, b'0' | b'1') || is_unknown(byte),
        8 => matches!(byte, b'0'..=b'7') || is_unknown(byte),
        _ => byte.is_ascii_hexdigit() || is_unknown(byte),
    }
}

fn digits(text: &[u8], radix: u8) -> Option<(u64, u64)> {
    let (mut bits, mut free) = (0u64, 0u64);
    for &byte in text.iter().filter(|byte| !is_gap(**byte)) {
        let value = (byte as char).to_digit(16).unwrap_or(0);
        let unknown = if is_unknown(byte) { radix - 1 } else { 0 };
        bits = bits.checked_mul(u64::from(radix))?.checked_add(u64::from(value))?;
        free = free.checked_mul(u64::from(radix))?.checked_add(u64::from(unknown))?;
    }
    Some((bits, free))
}

fn limit(width: u32) -> u128 {
    1 << width
}

/// What a literal means; none where it is too wide, or the text isn't one literal from its first byte to its last.
fn literal(text: &[u8]) -> Option<Literal> {
    let front = byte_at(text, 0).is_ascii_digit();
    let end = if front { run(text, 1, is_number) } else { 0 };
    if front && end == text.len() {
        let (bits, _) = digits(text, 10)?;
        let width = if bits < 1 << 31 {
            32
        } else if bits < 1 << 63 {
            64
        } else {
            return None;
        };
        return Some(Literal { width, sized: false, signed: true, bits, free: 0 });
    }
    let apostrophe = if front { run(text, end, |byte| byte == b' ') } else { 0 };
    if based_end(text, apostrophe)? != text.len() {
        return None;
    }
    let (size, rest) = (&text[..end], &text[apostrophe + 1..]);
    let signed = matches!(rest[0], b's' | b'S');
    let rest = if signed { &rest[1..] } else { rest };
    let radix = radix(rest[0])?;
    let (bits, free) = digits(&rest[1..], radix)?;
    let width = if !size.is_empty() {
        digits(size, 10)?.0
    } else if bits < 1 << 32 && free < 1 << 32 {
        32
    } else {
        64
    };
    if width == 0 || width > 64 || u128::from(bits.max(free)) >= limit(width as u32) {
        return None;
    }
    let mut known = rest[1..].iter().filter(|byte| !is_gap(**byte));
    let leads_unknown = known.next().is_some_and(|byte| is_unknown(*byte));
    let used = (known.count() as u32 + 1) * (radix as u32).ilog2();
    let above = if leads_unknown && u64::from(used) < width {
        (limit(width as u32) - limit(used)) as u64
    } else {
        0
    };
    Some(Literal { width: width as u8, sized: !size.is_empty(), signed, bits, free: free | above })
}

/// Where the based literal ends whose apostrophe stands at this place.
fn based_end(text: &[u8], at: usize) -> Option<usize> {
    if byte_at(text, at) != b'\'' {
        return None;
    }
    let marked = if matches!(byte_at(text, at + 1), b's' | b'S') { at + 2 } else { at + 1 };
    let radix = radix(byte_at(text, marked))?;
    let first = run(text, marked + 1, |byte| byte == b' ');
    if !is_digit_of(radix, byte_at(text, first)) {
        return None;
    }
    Some(run(text, first + 1, |byte| is_digit_of(radix, byte) || byte == b'_'))
}

fn scan(text: &[u8]) -> Option<Vec<Token>> {
    let mut tokens = Vec::new();
    let mut at = 0;
    while at < text.len() {
        let byte = text[at];
        let (kind, spelled, end) = match byte {
            b' ' | b'\t' | b'\n' | b'\r' | 12 => {
                at += 1;
                continue;
            }
            b'/' if byte_at(text, at + 1) == b'/' => {
                at = run(text, at + 2, |byte| byte != b'\n');
                continue;
            }
            b'/' if byte_at(text, at + 1) == b'*' => {
                at = at + 4 + text[at + 2..].windows(2).position(|pair| pair == b"*/")?;
                continue;
            }
            b'0'..=b'9' => {
                let end = run(text, at + 1, is_number);
                match based_end(text, run(text, end, |byte| byte == b' ')) {
                    Some(last) => (Kind::Based, 0, last),
                    None => (Kind::Decimal, 0, end),
                }
            }
            b'a'..=b'z' | b'A'..=b'Z' | b'_' => {
                let end = run(text, at + 1, is_word);
                match keyword(&text[at..end]) {
                    Some(spelled) => (Kind::Keyword, spelled, end),
                    None if end - at > 1024 => return None,
                    None => (Kind::Ident, 0, end),
                }
            }
            b'"' => {
                let end = run(text, at + 1, |byte| byte != b'"' && byte != b'\n');
                if byte_at(text, end) != b'"' {
                    return None;
                }
                (Kind::Text, 0, end + 1)
            }
            b'$' if is_word(byte_at(text, at + 1)) => (Kind::System, 0, run(text, at + 1, is_word)),
            b'\'' if based_end(text, at).is_some() => (Kind::Based, 0, based_end(text, at)?),
            _ => {
                let (place, (spelling, kind)) =
                    operators(byte).iter().enumerate().find(|(_, (op, _))| text[at..].starts_with(op))?;
                (*kind, spelled(byte, place), at + spelling.len())
            }
        };
        if matches!(kind, Kind::Decimal | Kind::Based) {
            literal(&text[at..end])?;
        }
        tokens.push(Token { kind, spelled, at: at as u32, len: (end - at) as u32 });
        at = end;
    }
    Some(tokens)
}

fn main() {
    let words: Vec<String> = env::args().collect();
    let rounds: u32 = words[2].parse().expect("a number");
    let text = fs::read(&words[1]).expect("a file");
    let mut count = 0;
    for _ in 0..rounds {
        count = std::hint::black_box(scan(std::hint::black_box(&text))).expect("tokens").len();
    }
    println!("{count}");
}
