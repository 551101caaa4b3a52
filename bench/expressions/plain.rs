// The guards and points of crates/bench in plain Rust: the same trees, walked in the same way.
#[derive(Clone, Copy)]
struct Typ {
    width: u8,
    signed: bool,
}

const BIT: Typ = Typ { width: 1, signed: false };

#[derive(Clone, Copy)]
#[allow(dead_code)]
enum UnOp { Plus, Neg, Not, LogNot, And, Or, Xor, Nand, Nor, Xnor }

#[derive(Clone, Copy)]
#[allow(dead_code)]
enum BinOp { Add, Sub, Mul, Div, Rem, And, Or, Xor, Shl, Shr, Sshl, Sshr, Lt, Le, Gt, Ge, Eq, Ne }

#[allow(dead_code)]
enum Meaning {
    Signal { index: u16, typ: Typ },
    Const { value: i128, typ: Typ },
}

enum Node {
    Number(u64),
    Name(Meaning),
    Part(Meaning, u8),
    Alone(Box<Tree>),
    Joined(Box<Tree>, Box<Tree>),
    Unary(UnOp, Box<Tree>),
    Binary(BinOp, Box<Tree>, Box<Tree>),
    And(Box<Tree>, Box<Tree>),
    Or(Box<Tree>, Box<Tree>),
    Cond(Box<Tree>, Box<Tree>, Box<Tree>),
}

struct Tree {
    typ: Typ,
    node: Node,
}

struct Sample<'a> {
    signals: &'a [Option<i128>],
    item: Option<i128>,
}

const ITEM: u16 = 65_535;

fn ones(width: u8) -> u64 {
    u64::MAX >> (64 - width)
}

fn low_bits(width: u8, number: i128) -> u64 {
    number as u64 & ones(width)
}

fn cut(width: u8, signed: bool, number: i128) -> i128 {
    let bits = low_bits(width, number);
    let half = 1u64 << (width - 1);
    if signed && half <= bits { bits as i128 - 2 * half as i128 } else { bits as i128 }
}

fn common(left: Typ, right: Typ) -> Typ {
    Typ { width: left.width.max(right.width), signed: left.signed && right.signed }
}

fn operand_typs(op: BinOp, whole: Typ, left: Typ, right: Typ) -> (Typ, Typ) {
    match op {
        BinOp::Shl | BinOp::Shr | BinOp::Sshl | BinOp::Sshr => (whole, right),
        BinOp::Lt | BinOp::Le | BinOp::Gt | BinOp::Ge | BinOp::Eq | BinOp::Ne => {
            let both = common(left, right);
            (both, both)
        }
        _ => (whole, whole),
    }
}

fn operate(op: BinOp, whole: Typ, amount: u8, x: i128, y: i128) -> Option<i128> {
    let to = |number: i128| cut(whole.width, whole.signed, number);
    let bits = |number: i128| low_bits(whole.width, number);
    Some(match op {
        BinOp::Add => to(x + y),
        BinOp::Sub => to(x - y),
        BinOp::Mul => to(x.wrapping_mul(y)),
        BinOp::Div => to(x.checked_div(y)?),
        BinOp::Rem => to(x.checked_rem(y)?),
        BinOp::And => to((bits(x) & bits(y)) as i128),
        BinOp::Or => to((bits(x) | bits(y)) as i128),
        BinOp::Xor => to((bits(x) ^ bits(y)) as i128),
        BinOp::Shl | BinOp::Sshl => {
            let by = low_bits(amount, y);
            if by < 64 { to(x.wrapping_mul(1i128 << by)) } else { 0 }
        }
        BinOp::Shr => {
            let by = low_bits(amount, y);
            to(if by < 64 { bits(x) >> by } else { 0 } as i128)
        }
        BinOp::Sshr => to(x >> low_bits(amount, y).min(127)),
        BinOp::Lt => (x < y) as i128,
        BinOp::Le => (x <= y) as i128,
        BinOp::Gt => (x > y) as i128,
        BinOp::Ge => (x >= y) as i128,
        BinOp::Eq => (x == y) as i128,
        BinOp::Ne => (x != y) as i128,
    })
}

fn operate_alone(op: UnOp, whole: Typ, own: u8, x: i128) -> i128 {
    let bits = low_bits(own, x);
    match op {
        UnOp::Plus => x,
        UnOp::Neg => cut(whole.width, whole.signed, -x),
        UnOp::Not => cut(whole.width, whole.signed, !x),
        UnOp::LogNot => (x == 0) as i128,
        UnOp::And => (bits == ones(own)) as i128,
        UnOp::Or => (bits != 0) as i128,
        UnOp::Xor => (bits.count_ones() % 2) as i128,
        UnOp::Nand => (bits != ones(own)) as i128,
        UnOp::Nor => (bits == 0) as i128,
        UnOp::Xnor => (bits.count_ones() % 2 ^ 1) as i128,
    }
}

impl Meaning {
    fn typ(&self) -> Typ {
        match self {
            Meaning::Signal { typ, .. } | Meaning::Const { typ, .. } => *typ,
        }
    }

    fn value(&self, sample: &Sample) -> Option<i128> {
        match self {
            Meaning::Const { value, .. } => Some(*value),
            Meaning::Signal { index: ITEM, .. } => sample.item,
            Meaning::Signal { index, .. } => *sample.signals.get(*index as usize)?,
        }
    }
}

impl Tree {
    // Puts the value into `out`, and answers whether there is one.
    fn value(&self, whole: Typ, sample: &Sample, out: &mut i128) -> bool {
        match &self.node {
            Node::Number(bits) => {
                *out = cut(self.typ.width, whole.signed, *bits as i128);
                true
            }
            Node::Name(meaning) => {
                let Some(number) = meaning.value(sample) else { return false };
                *out = cut(self.typ.width, whole.signed, number);
                true
            }
            Node::Part(meaning, skip) => {
                let Some(number) = meaning.value(sample) else { return false };
                let bits = low_bits(meaning.typ().width, number) >> skip;
                *out = low_bits(self.typ.width, bits as i128) as i128;
                true
            }
            Node::Alone(inner) => {
                let known = inner.value(inner.typ, sample, out);
                *out = low_bits(inner.typ.width, *out) as i128;
                known
            }
            Node::Joined(front, last) => {
                let mut y = 0;
                if !front.value(front.typ, sample, out) || !last.value(last.typ, sample, &mut y) {
                    return false;
                }
                let bits = low_bits(front.typ.width, *out) << last.typ.width;
                *out = (bits + low_bits(last.typ.width, y)) as i128;
                true
            }
            Node::Unary(op, inner) => {
                let typ = match op {
                    UnOp::Plus | UnOp::Neg | UnOp::Not => whole,
                    _ => inner.typ,
                };
                if !inner.value(typ, sample, out) {
                    return false;
                }
                *out = operate_alone(*op, whole, inner.typ.width, *out);
                true
            }
            Node::Binary(op, left, right) => {
                let (first, second) = operand_typs(*op, whole, left.typ, right.typ);
                let mut y = 0;
                if !left.value(first, sample, out) || !right.value(second, sample, &mut y) {
                    return false;
                }
                let Some(number) = operate(*op, whole, right.typ.width, *out, y) else { return false };
                *out = number;
                true
            }
            Node::And(left, right) => {
                let known = left.value(left.typ, sample, out);
                if known && *out == 0 {
                    return true;
                }
                let mut y = 0;
                let other = right.value(right.typ, sample, &mut y);
                *out = (!other || y != 0) as i128;
                other && (y == 0 || known)
            }
            Node::Or(left, right) => {
                let known = left.value(left.typ, sample, out);
                if known && *out != 0 {
                    *out = 1;
                    return true;
                }
                let mut y = 0;
                let other = right.value(right.typ, sample, &mut y);
                *out = (y != 0) as i128;
                other && (y != 0 || known)
            }
            Node::Cond(test, first, second) => {
                if !test.value(test.typ, sample, out) {
                    return false;
                }
                if *out == 0 { second.value(whole, sample, out) } else { first.value(whole, sample, out) }
            }
        }
    }
}

fn eval(tree: &Tree, signals: &[Option<i128>], item: Option<i128>) -> Option<i128> {
    let mut out = 0;
    tree.value(tree.typ, &Sample { signals, item }, &mut out).then_some(out)
}

fn number(width: u8, signed: bool, bits: u64) -> Tree {
    Tree { typ: Typ { width, signed }, node: Node::Number(bits) }
}

fn meaning(letter: u8) -> Meaning {
    let (index, width, signed) =
        [(0, 8, false), (1, 16, false), (2, 32, false), (3, 12, true), (4, 16, true)][(letter - b'a') as usize];
    Meaning::Signal { index, typ: Typ { width, signed } }
}

fn name(letter: u8) -> Tree {
    let meaning = meaning(letter);
    Tree { typ: meaning.typ(), node: Node::Name(meaning) }
}

fn part(letter: u8, high: u8, low: u8) -> Tree {
    Tree { typ: Typ { width: high - low + 1, signed: false }, node: Node::Part(meaning(letter), low) }
}

fn concat(left: Tree, right: Tree) -> Tree {
    let typ = Typ { width: left.typ.width, signed: false };
    let left = Tree { typ, node: Node::Alone(Box::new(left)) };
    let typ = Typ { width: left.typ.width + right.typ.width, signed: false };
    Tree { typ, node: Node::Joined(Box::new(left), Box::new(right)) }
}

fn unary(op: UnOp, arg: Tree) -> Tree {
    let typ = match op {
        UnOp::Plus | UnOp::Neg | UnOp::Not => arg.typ,
        _ => BIT,
    };
    Tree { typ, node: Node::Unary(op, Box::new(arg)) }
}

fn binary(op: BinOp, left: Tree, right: Tree) -> Tree {
    let typ = match op {
        BinOp::Shl | BinOp::Shr | BinOp::Sshl | BinOp::Sshr => left.typ,
        BinOp::Lt | BinOp::Le | BinOp::Gt | BinOp::Ge | BinOp::Eq | BinOp::Ne => BIT,
        _ => common(left.typ, right.typ),
    };
    Tree { typ, node: Node::Binary(op, Box::new(left), Box::new(right)) }
}

fn both(left: Tree, right: Tree) -> Tree {
    Tree { typ: BIT, node: Node::And(Box::new(left), Box::new(right)) }
}

fn either(left: Tree, right: Tree) -> Tree {
    Tree { typ: BIT, node: Node::Or(Box::new(left), Box::new(right)) }
}

fn choice(test: Tree, yes: Tree, no: Tree) -> Tree {
    let typ = common(yes.typ, no.typ);
    Tree { typ, node: Node::Cond(Box::new(test), Box::new(yes), Box::new(no)) }
}

fn all_guarded() -> Vec<(Tree, Tree)> {
    use BinOp::*;
    let sum = binary(Add, name(b'a'), binary(Mul, name(b'b'), number(8, false, 3)));
    let mixed = binary(Xor, sum, binary(Shr, name(b'c'), number(8, false, 5)));
    let below = binary(Lt, mixed, number(32, false, 2_000_000_000));
    let same = binary(Eq, binary(Sub, name(b'd'), name(b'b')), name(b'c'));
    let first_guard = both(below, either(same, binary(Ne, name(b'a'), number(8, false, 7))));
    let bits = binary(Or, binary(And, name(b'a'), name(b'b')), name(b'c'));
    let first_point = binary(Add, binary(Sshr, name(b'd'), number(8, false, 2)), bits);

    let other = binary(Ne, part(b'b', 3, 0), number(4, false, 9));
    let second_guard = both(other, unary(UnOp::LogNot, binary(Gt, name(b'd'), name(b'e'))));
    let is_below = binary(Lt, name(b'd'), number(12, true, 0));
    let second_point = choice(is_below, unary(UnOp::Neg, name(b'e')), binary(Sub, name(b'e'), name(b'd')));

    let is_high = binary(Ge, part(b'c', 31, 28), number(4, false, 3));
    let above = binary(Gt, name(b'a'), number(8, false, 10));
    let third_guard = choice(is_high, above, binary(Ne, name(b'b'), name(b'e')));
    let joined = concat(part(b'a', 7, 4), part(b'c', 11, 0));
    let third_point = binary(Add, joined, binary(Shl, name(b'b'), part(b'a', 2, 0)));

    vec![(first_guard, first_point), (second_guard, second_point), (third_guard, third_point)]
}

fn row(word: u64) -> [Option<i128>; 5] {
    [
        Some((word >> 56) as i128),
        Some(((word >> 40) & 0xffff) as i128),
        Some(((word >> 8) & 0xffff_ffff) as i128),
        Some((word >> 52) as i128 - 2_048),
        Some(((word >> 24) & 0xffff) as i128 - 32_768),
    ]
}

fn main() {
    let rows: u32 = std::env::args().nth(1).and_then(|word| word.parse().ok()).unwrap_or(0);
    let all = all_guarded();
    let (mut checksum, mut evaluations, mut word) = (0u64, 0u64, 1u64);
    for _ in 0..rows {
        word = word.wrapping_mul(6_364_136_223_846_793_005).wrapping_add(1_442_695_040_888_963_407);
        let signals = row(word);
        for (guard, point) in &all {
            evaluations += 1;
            if eval(guard, &signals, None).is_some_and(|holds| holds != 0) {
                evaluations += 1;
                if let Some(value) = eval(point, &signals, None) {
                    checksum = checksum.wrapping_mul(31).wrapping_add(value as u64);
                }
            }
        }
    }
    println!("{checksum} {evaluations}");
}
