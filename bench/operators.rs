//! What operators.rattle does, in plain Rust: on the numbers of the machine, u32, u64 and u128, and with the word `vectors` on vectors
//! that carry their width, as those of `bit_ops` do.
use std::env;
use std::time::Instant;

#[derive(Clone, Copy)]
enum Binary {
    Mul,
    Div,
    Rem,
    Add,
    Sub,
    Shl,
    Shr,
    Sar,
    Lt,
    Le,
    Gt,
    Ge,
    Eq,
    Ne,
    And,
    Xor,
    Xnor,
    Or,
    LogicAnd,
    LogicOr,
}

const STEPS: u32 = 1024;

const OPS: [(&str, Binary); 20] = [
    ("*", Binary::Mul),
    ("/", Binary::Div),
    ("%", Binary::Rem),
    ("+", Binary::Add),
    ("-", Binary::Sub),
    ("<<", Binary::Shl),
    (">>", Binary::Shr),
    (">>>", Binary::Sar),
    ("<", Binary::Lt),
    ("<=", Binary::Le),
    (">", Binary::Gt),
    (">=", Binary::Ge),
    ("==", Binary::Eq),
    ("!=", Binary::Ne),
    ("&", Binary::And),
    ("^", Binary::Xor),
    ("~^", Binary::Xnor),
    ("|", Binary::Or),
    ("&&", Binary::LogicAnd),
    ("||", Binary::LogicOr),
];

fn next(state: &mut u64) -> u64 {
    *state = state
        .wrapping_mul(6364136223846793005)
        .wrapping_add(1442695040888963407);
    *state >> 11
}

fn operand(state: &mut u64) -> u128 {
    let high = u128::from(next(state)) << 75;
    let middle = u128::from(next(state)) << 40;
    high ^ middle ^ u128::from(next(state))
}

fn steps(only: Option<Binary>, width: u32) -> Vec<(Binary, u128, u128)> {
    let mut state = 7;
    let mut made = Vec::new();
    for _ in 0..STEPS {
        let any = OPS[(next(&mut state) % 20) as usize].1;
        let op = only.unwrap_or(any);
        let a = operand(&mut state) >> (128 - width);
        let full = operand(&mut state) >> (128 - width);
        let b = match op {
            Binary::Shl | Binary::Shr | Binary::Sar => full & 15,
            Binary::Div | Binary::Rem => full >> (width / 2),
            _ => full,
        };
        made.push((op, a, b));
    }
    made
}

// Takes the steps 500 times, and says the sum of their values and the time in ns; ten times over.
fn time<S>(title: &str, steps: &[S], value: impl Fn(&S) -> u128) {
    for _ in 0..10 {
        let start = Instant::now();
        let mut sum: u128 = 0;
        for _ in 0..500 {
            for step in steps {
                sum = sum.wrapping_add(value(step));
            }
        }
        let time = start.elapsed().as_nanos();
        println!("{title} {sum} {time}");
    }
}

macro_rules! machine {
    ($report:ident, $unsigned:ty, $signed:ty) => {
        fn $report(name: &str, only: Option<Binary>, signed: bool) {
            #[derive(Clone, Copy)]
            struct Step {
                op: Binary,
                a: $unsigned,
                b: $unsigned,
                signed: bool,
            }

            fn value(step: &Step) -> $unsigned {
                let (a, b) = (step.a, step.b);
                let (x, y) = (a as $signed, b as $signed);
                let far = b >= <$unsigned>::BITS as $unsigned;
                match step.op {
                    Binary::Mul => a.wrapping_mul(b),
                    Binary::Div if b == 0 => 0,
                    Binary::Div if step.signed => x.wrapping_div(y) as $unsigned,
                    Binary::Div => a / b,
                    Binary::Rem if b == 0 => 0,
                    Binary::Rem if step.signed => x.wrapping_rem(y) as $unsigned,
                    Binary::Rem => a % b,
                    Binary::Add => a.wrapping_add(b),
                    Binary::Sub => a.wrapping_sub(b),
                    Binary::Shl if far => 0,
                    Binary::Shl => a << b,
                    Binary::Sar if step.signed => (x >> b.min(<$unsigned>::BITS as $unsigned - 1)) as $unsigned,
                    Binary::Shr | Binary::Sar if far => 0,
                    Binary::Shr | Binary::Sar => a >> b,
                    Binary::Lt => <$unsigned>::from(if step.signed { x < y } else { a < b }),
                    Binary::Le => <$unsigned>::from(if step.signed { x <= y } else { a <= b }),
                    Binary::Gt => <$unsigned>::from(if step.signed { x > y } else { a > b }),
                    Binary::Ge => <$unsigned>::from(if step.signed { x >= y } else { a >= b }),
                    Binary::Eq => <$unsigned>::from(a == b),
                    Binary::Ne => <$unsigned>::from(a != b),
                    Binary::And => a & b,
                    Binary::Xor => a ^ b,
                    Binary::Xnor => !(a ^ b),
                    Binary::Or => a | b,
                    Binary::LogicAnd => <$unsigned>::from(a != 0 && b != 0),
                    Binary::LogicOr => <$unsigned>::from(a != 0 || b != 0),
                }
            }

            let steps: Vec<Step> = steps(only, <$unsigned>::BITS)
                .into_iter()
                .map(|(op, a, b)| Step { op, a: a as $unsigned, b: b as $unsigned, signed })
                .collect();
            let title = format!("{name} {} {signed}", <$unsigned>::BITS);
            time(&title, &steps, |step| u128::from(value(step)));
        }
    };
}

machine!(short, u32, i32);
machine!(middle, u64, i64);
machine!(long, u128, i128);

#[derive(Clone, Copy)]
struct Bits {
    width: u32,
    value: u128,
}

fn low(value: u128, width: u32) -> u128 {
    value & (u128::MAX >> (128 - width))
}

fn integer(a: Bits) -> i128 {
    ((a.value << (128 - a.width)) as i128) >> (128 - a.width)
}

fn bit(holds: bool) -> Bits {
    Bits { width: 1, value: u128::from(holds) }
}

fn binary(op: Binary, a: Bits, b: Bits, signed: bool) -> Bits {
    let (width, x, y) = (a.width, a.value, b.value);
    let value = match op {
        Binary::Mul => low(x.wrapping_mul(y), width),
        Binary::Div | Binary::Rem if y == 0 => 0,
        Binary::Div if signed => low(integer(a).wrapping_div(integer(b)) as u128, width),
        Binary::Div => x / y,
        Binary::Rem if signed => low(integer(a).wrapping_rem(integer(b)) as u128, width),
        Binary::Rem => x % y,
        Binary::Add => low(x.wrapping_add(y), width),
        Binary::Sub => low(x.wrapping_sub(y), width),
        Binary::Sar if signed => low((integer(a) >> y.min(127)) as u128, width),
        Binary::Shl | Binary::Shr | Binary::Sar if y >= 128 => 0,
        Binary::Shl => low(x << y, width),
        Binary::Shr | Binary::Sar => x >> y,
        Binary::Lt if signed => return bit(integer(a) < integer(b)),
        Binary::Le if signed => return bit(integer(a) <= integer(b)),
        Binary::Gt if signed => return bit(integer(a) > integer(b)),
        Binary::Ge if signed => return bit(integer(a) >= integer(b)),
        Binary::Lt => return bit(x < y),
        Binary::Le => return bit(x <= y),
        Binary::Gt => return bit(x > y),
        Binary::Ge => return bit(x >= y),
        Binary::Eq => return bit(x == y),
        Binary::Ne => return bit(x != y),
        Binary::And => x & y,
        Binary::Xor => x ^ y,
        Binary::Xnor => low(!(x ^ y), width),
        Binary::Or => x | y,
        Binary::LogicAnd => return bit(x != 0 && y != 0),
        Binary::LogicOr => return bit(x != 0 || y != 0),
    };
    Bits { width, value }
}

#[derive(Clone, Copy)]
struct VectorStep {
    op: Binary,
    a: Bits,
    b: Bits,
    signed: bool,
}

fn vectors(width: u32, name: &str, only: Option<Binary>, signed: bool) {
    let steps: Vec<VectorStep> = steps(only, width)
        .into_iter()
        .map(|(op, a, b)| VectorStep { op, a: Bits { width, value: a }, b: Bits { width, value: b }, signed })
        .collect();
    let title = format!("{name} {width} {signed}");
    time(&title, &steps, |step| binary(step.op, step.a, step.b, step.signed).value);
}

fn report_all(report: impl Fn(&str, Option<Binary>, bool)) {
    for (name, op) in OPS {
        report(name, Some(op), false);
    }
    report("mixed", None, false);
    report("mixed", None, true);
    report("<", Some(Binary::Lt), true);
    report(">>>", Some(Binary::Sar), true);
    report("/", Some(Binary::Div), true);
}

fn main() {
    if env::args().nth(1).is_some_and(|word| word == "vectors") {
        for width in [32, 64, 128] {
            report_all(|name, only, signed| vectors(width, name, only, signed));
        }
    } else {
        report_all(short);
        report_all(middle);
        report_all(long);
    }
}
