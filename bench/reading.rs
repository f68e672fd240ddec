//! What reading.rattle does, in plain Rust: clean text and tokens by the same rules, of a text without faults, which end the program.
use std::collections::HashMap;
use std::time::Instant;
use std::{env, fs, process};

fn refuse(line: u32, why: &str) -> ! {
    eprintln!("line {line}: {why}");
    process::exit(1)
}

fn is_white(byte: u8) -> bool {
    matches!(byte, b' ' | b'\t' | b'\n' | 12 | b'\r')
}

fn begins_name(byte: u8) -> bool {
    byte.is_ascii_alphabetic() || byte == b'_'
}

fn is_in_name(byte: u8) -> bool {
    byte.is_ascii_alphanumeric() || byte == b'_' || byte == b'$'
}

fn name_at(bytes: &[u8]) -> &[u8] {
    if !bytes.first().is_some_and(|byte| begins_name(*byte)) {
        return &[];
    }
    &bytes[..bytes.iter().take_while(|byte| is_in_name(**byte)).count()]
}

fn at_line_end(bytes: &[u8]) -> bool {
    bytes.starts_with(b"\n") || bytes.starts_with(b"\r\n")
}

fn line_length(bytes: &[u8]) -> usize {
    (0..bytes.len()).find(|k| at_line_end(&bytes[*k..])).unwrap_or(bytes.len())
}

fn block_length(bytes: &[u8], line: u32) -> usize {
    match bytes[2..].windows(2).position(|pair| pair == b"*/") {
        Some(behind) => behind + 4,
        None => refuse(line, "open comment"),
    }
}

fn string_length(bytes: &[u8]) -> usize {
    let mut escaped = false;
    for (k, byte) in bytes.iter().enumerate().skip(1) {
        if at_line_end(&bytes[k..]) {
            return k;
        }
        if *byte == b'"' && !escaped {
            return k + 1;
        }
        escaped = *byte == b'\\' && !escaped;
    }
    bytes.len()
}

fn escaped_length(bytes: &[u8]) -> usize {
    1 + bytes[1..].iter().take_while(|byte| !is_white(**byte)).count()
}

#[derive(Default)]
struct Clean {
    bytes: Vec<u8>,
    lines: Vec<u32>,
}

impl Clean {
    fn push(&mut self, byte: u8, line: u32) {
        if !is_white(byte) && !(32..=126).contains(&byte) {
            refuse(line, "bad byte");
        }
        self.bytes.push(byte);
        self.lines.push(line);
    }
}

#[derive(Clone, Copy, PartialEq)]
enum Branch {
    Waiting,
    Reading,
    Done,
}

struct Reader<'a> {
    text: &'a [u8],
    at: usize,
    line: u32,
    macros: HashMap<&'a [u8], Vec<u8>>,
    conditions: Vec<(Branch, bool)>,
    out: Clean,
}

impl<'a> Reader<'a> {
    fn rest(&self) -> &'a [u8] {
        &self.text[self.at..]
    }

    fn is_read(&self) -> bool {
        self.conditions.last().is_none_or(|it| it.0 == Branch::Reading)
    }

    fn pass(&mut self, count: usize) {
        let passed = &self.text[self.at..self.at + count];
        self.line += passed.iter().filter(|byte| **byte == b'\n').count() as u32;
        self.at += count;
    }

    fn keep(&mut self, count: usize) {
        for byte in &self.text[self.at..self.at + count] {
            self.out.push(*byte, self.line);
            self.line += u32::from(*byte == b'\n');
        }
        self.at += count;
    }

    fn read(&mut self) {
        while let Some(byte) = self.text.get(self.at) {
            let rest = self.rest();
            let reads = self.is_read();
            match byte {
                b'/' if rest.starts_with(b"//") => self.comment(line_length(rest), reads),
                b'/' if rest.starts_with(b"/*") => self.comment(block_length(rest, self.line), reads),
                b'"' if reads => self.keep(string_length(rest)),
                b'"' => self.pass(string_length(rest)),
                b'\\' if reads => self.keep(escaped_length(rest)),
                b'`' => self.tick(reads),
                _ if reads => self.keep(1),
                _ => self.pass(1),
            }
        }
        if !self.conditions.is_empty() {
            refuse(self.line, "open condition");
        }
    }

    fn comment(&mut self, count: usize, reads: bool) {
        if reads {
            self.out.push(b' ', self.line);
        }
        self.pass(count);
    }

    fn name(&mut self) -> &'a [u8] {
        loop {
            let rest = self.rest();
            if rest.starts_with(b"/*") {
                self.pass(block_length(rest, self.line));
            } else if !rest.is_empty() && is_white(rest[0]) && !at_line_end(rest) {
                self.at += 1;
            } else {
                break;
            }
        }
        let name = name_at(self.rest());
        if name.is_empty() {
            refuse(self.line, "no name");
        }
        self.at += name.len();
        name
    }

    fn tick(&mut self, reads: bool) {
        self.at += 1;
        let name = name_at(self.rest());
        match name {
            b"ifdef" | b"ifndef" | b"elsif" | b"else" | b"endif" => {
                self.at += name.len();
                self.conditional(name, reads);
            }
            _ if !reads => {}
            b"define" | b"undef" | b"timescale" | b"default_nettype" | b"resetall" | b"celldefine" | b"endcelldefine" => {
                self.at += name.len();
                self.directive(name);
            }
            b"" | b"include" => refuse(self.line, "bad directive"),
            _ => {
                self.at += name.len();
                expand(&self.macros, name, self.line, 16, &mut self.out);
            }
        }
    }

    fn conditional(&mut self, word: &[u8], reads: bool) {
        match word {
            b"ifdef" | b"ifndef" => {
                let name = self.name();
                let holds = self.macros.contains_key(name) == (word == b"ifdef");
                let branch = match (reads, holds) {
                    (false, _) => Branch::Done,
                    (true, true) => Branch::Reading,
                    (true, false) => Branch::Waiting,
                };
                self.conditions.push((branch, false));
            }
            b"endif" => {
                if self.conditions.pop().is_none() {
                    refuse(self.line, "unbalanced");
                }
            }
            _ => {
                let holds = word == b"else" || {
                    let name = self.name();
                    self.macros.contains_key(name)
                };
                let Some((branch, last)) = self.conditions.last_mut() else {
                    refuse(self.line, "unbalanced")
                };
                if *last {
                    refuse(self.line, "unbalanced");
                }
                *branch = match branch {
                    Branch::Waiting if holds => Branch::Reading,
                    Branch::Waiting => Branch::Waiting,
                    _ => Branch::Done,
                };
                *last = word == b"else";
            }
        }
    }

    fn directive(&mut self, word: &[u8]) {
        match word {
            b"define" => {
                let name = self.name();
                if self.rest().starts_with(b"(") {
                    refuse(self.line, "parameters");
                }
                let body = self.line_of(true);
                self.macros.insert(name, body.trim_ascii().to_vec());
            }
            b"undef" => {
                let name = self.name();
                self.macros.remove(name);
            }
            _ => {
                self.line_of(false);
            }
        }
    }

    fn line_of(&mut self, continues: bool) -> Vec<u8> {
        let mut body = Vec::new();
        while self.at < self.text.len() && !at_line_end(self.rest()) {
            let rest = self.rest();
            if continues && rest[0] == b'\\' && at_line_end(&rest[1..]) {
                self.pass(if rest[1] == b'\n' { 2 } else { 3 });
                body.push(b' ');
            } else if rest.starts_with(b"//") {
                self.pass(line_length(rest));
            } else if rest.starts_with(b"/*") {
                self.pass(block_length(rest, self.line));
                body.push(b' ');
            } else {
                let count = match rest[0] {
                    b'"' => string_length(rest),
                    b'\\' => escaped_length(rest),
                    _ => 1,
                };
                body.extend_from_slice(&rest[..count]);
                self.pass(count);
            }
        }
        body
    }
}

fn expand(macros: &HashMap<&[u8], Vec<u8>>, name: &[u8], line: u32, depth: u32, out: &mut Clean) {
    let Some(body) = macros.get(name) else {
        refuse(line, "unknown macro")
    };
    if depth == 0 {
        refuse(line, "macros too deep");
    }
    let mut at = 0;
    while at < body.len() {
        let rest = &body[at..];
        let count = match rest[0] {
            b'`' => {
                let name = name_at(&rest[1..]);
                expand(macros, name, line, depth - 1, out);
                at += 1 + name.len();
                continue;
            }
            b'"' => string_length(rest),
            b'\\' => escaped_length(rest),
            _ => 1,
        };
        for byte in &rest[..count] {
            out.push(*byte, line);
        }
        at += count;
    }
}

fn preprocess(text: &[u8]) -> Clean {
    let mut reader = Reader { text, at: 0, line: 1, macros: HashMap::new(), conditions: Vec::new(), out: Clean::default() };
    reader.read();
    reader.out
}

#[derive(Clone, Copy)]
#[allow(dead_code)]
struct Literal {
    width: u32,
    sized: bool,
    signed: bool,
    value: u128,
    wild: u128,
}

// A keyword or a system name is told by its spelling, a mark by its first byte and its length.
#[allow(dead_code)]
enum Kind {
    Name(Vec<u8>),
    System(&'static [u8]),
    Number(Literal),
    Str(Vec<u8>),
    Key(&'static [u8]),
    Mark(u8, usize),
}

struct Token {
    line: u32,
    kind: Kind,
}

macro_rules! one_of {
    ($word:expr; $($entry:literal)*) => { match $word { $($entry => Some(&$entry[..]),)* _ => None } };
}

fn keyword(word: &[u8]) -> Option<&'static [u8]> {
    one_of!(word; b"always" b"assign" b"automatic" b"begin" b"case" b"casez" b"default" b"else" b"end" b"endcase" b"endfunction"
        b"endgenerate" b"endmodule" b"for" b"function" b"generate" b"genvar" b"if" b"initial" b"input" b"integer" b"localparam"
        b"module" b"negedge" b"or" b"output" b"parameter" b"posedge" b"reg" b"signed" b"wire" b"inout" b"casex" b"task" b"fork"
        b"join" b"wait" b"force" b"release" b"deassign" b"while" b"repeat" b"forever" b"real" b"realtime" b"time" b"event" b"tri"
        b"wand" b"wor" b"supply0" b"supply1" b"defparam" b"specify" b"primitive" b"disable")
}

fn system_name(word: &[u8]) -> Option<&'static [u8]> {
    one_of!(word; b"display" b"write" b"fwrite" b"stop" b"fatal" b"signed" b"unsigned" b"clog2")
}

fn mark_length(bytes: &[u8], line: u32) -> usize {
    match bytes {
        [b'<', b'<', b'<', ..] | [b'>', b'>', b'>', ..] | [b'=' | b'!', b'=', b'=', ..] => 3,
        [b'<', b'<' | b'=', ..] | [b'>', b'>' | b'=', ..] | [b'=' | b'!', b'=', ..] => 2,
        [b'&', b'&', ..] | [b'|', b'|', ..] | [b'~', b'&' | b'|' | b'^', ..] | [b'^', b'~', ..] | [b'+' | b'-', b':', ..] => 2,
        [b'(' | b')' | b';' | b',' | b'[' | b']' | b'{' | b'}' | b'.' | b':' | b'#' | b'@' | b'?' | b'*' | b'/' | b'%', ..] => 1,
        [b'=' | b'+' | b'-' | b'<' | b'>' | b'&' | b'|' | b'^' | b'!' | b'~', ..] => 1,
        _ => refuse(line, "bad token"),
    }
}

fn attribute_length(bytes: &[u8]) -> Option<usize> {
    let behind = bytes.strip_prefix(b"(*")?;
    if behind.trim_ascii_start().starts_with(b")") {
        return None;
    }
    let (mut quoted, mut escaped) = (false, false);
    for (k, byte) in behind.iter().enumerate() {
        if !quoted && behind[k..].starts_with(b"*)") {
            return Some(k + 4);
        }
        let ends = *byte == b'\n' || *byte == b'"' && !escaped;
        (quoted, escaped) = match quoted {
            false => (*byte == b'"', false),
            true => (!ends, *byte == b'\\' && !escaped),
        };
    }
    None
}

fn digit(byte: u8) -> u128 {
    u128::from((byte as char).to_digit(16).unwrap_or(0))
}

fn value_of(radix: u128, digits: &[u8], line: u32) -> u128 {
    let mut value: u128 = 0;
    for byte in digits.iter().filter(|byte| **byte != b'_') {
        value = match value.checked_mul(radix).and_then(|value| value.checked_add(digit(*byte))) {
            Some(value) => value,
            None => refuse(line, "too wide"),
        };
    }
    value
}

fn low(width: u32, value: u128) -> u128 {
    if width == 128 { value } else { value & ((1 << width) - 1) }
}

fn wild_of(bits: u32, width: u32, digits: &[u8]) -> u128 {
    let is_z = |byte: u8| matches!(byte, b'z' | b'Z' | b'?');
    let mut wild = if is_z(digits[0]) { u128::MAX } else { 0 };
    for byte in digits.iter().filter(|byte| **byte != b'_') {
        wild = wild << bits | if is_z(*byte) { (1 << bits) - 1 } else { 0 };
    }
    low(width, wild)
}

fn number(bytes: &[u8], line: u32) -> (Kind, usize) {
    let size = bytes.iter().take_while(|byte| byte.is_ascii_digit() || **byte == b'_').count();
    let mut at = size;
    if bytes.get(at) != Some(&b'\'') {
        let value = value_of(10, &bytes[..size], line);
        return (plain(value, &bytes[at..], line), at);
    }
    at += 1;
    let signed = matches!(bytes.get(at), Some(b's' | b'S'));
    at += usize::from(signed);
    let (radix, bits) = match bytes.get(at) {
        Some(b'b' | b'B') => (2, 1),
        Some(b'o' | b'O') => (8, 3),
        Some(b'd' | b'D') => (10, 1),
        Some(b'h' | b'H') => (16, 4),
        _ => refuse(line, "bad token"),
    };
    at += 1;
    let is_open = |byte: u8| matches!(byte, b'x' | b'X' | b'z' | b'Z' | b'?');
    let alone = radix == 10 && bytes.get(at).is_some_and(|byte| is_open(*byte));
    let is_digit = |byte: u8| match radix {
        10 => byte.is_ascii_digit(),
        _ => (byte as char).is_digit(radix) || is_open(byte),
    };
    let count = match alone {
        true => 1 + bytes[at + 1..].iter().take_while(|byte| **byte == b'_').count(),
        false => bytes[at..].iter().take_while(|byte| is_digit(**byte) || **byte == b'_').count(),
    };
    let digits = &bytes[at..at + count];
    at += count;
    if digits.first().is_none_or(|byte| *byte == b'_') || bytes.get(at).is_some_and(|byte| begins_name(*byte) || byte.is_ascii_digit()) {
        refuse(line, "bad number");
    }
    let width = if size == 0 { 32 } else { value_of(10, &bytes[..size], line) };
    if !(1..=128).contains(&width) {
        refuse(line, "too wide");
    }
    let width = width as u32;
    let value = value_of(radix.into(), digits, line);
    let literal = Literal { width, sized: size > 0, signed, value: low(width, value), wild: wild_of(bits, width, digits) };
    (Kind::Number(literal), at)
}

fn plain(value: u128, rest: &[u8], line: u32) -> Kind {
    if value > u128::from(u32::MAX) || rest.first().is_some_and(|byte| begins_name(*byte) || byte.is_ascii_digit()) {
        refuse(line, "bad number");
    }
    Kind::Number(Literal { width: 32, sized: false, signed: true, value, wild: 0 })
}

fn string(bytes: &[u8], line: u32) -> (Kind, usize) {
    let mut text = Vec::new();
    let mut at = 1;
    loop {
        match bytes[at..] {
            [b'"', ..] => return (Kind::Str(text), at + 1),
            [b'\\', escape, ..] if !(b'0'..=b'7').contains(&escape) => {
                text.push(match escape {
                    b'n' => b'\n',
                    b't' => b'\t',
                    b'\\' | b'"' => escape,
                    _ => refuse(line, "bad escape"),
                });
                at += 2;
            }
            [b'\\', ref behind @ ..] => {
                let count = behind.iter().take(3).take_while(|byte| (b'0'..=b'7').contains(byte)).count();
                let value = value_of(8, &behind[..count], line);
                if value > 255 {
                    refuse(line, "bad escape");
                }
                text.push(value as u8);
                at += 1 + count;
            }
            [] | [b'\n', ..] | [b'\r', b'\n', ..] => refuse(line, "open string"),
            [byte, ..] => {
                text.push(byte);
                at += 1;
            }
        }
    }
}

fn token(bytes: &[u8], line: u32) -> (Kind, usize) {
    let (kind, used) = match bytes[0] {
        byte if begins_name(byte) => {
            let name = name_at(bytes);
            let kind = match keyword(name) {
                Some(word) => Kind::Key(word),
                None => Kind::Name(name.to_vec()),
            };
            (kind, name.len())
        }
        b'0'..=b'9' | b'\'' => return number(bytes, line),
        b'"' => return string(bytes, line),
        b'$' => {
            let name = name_at(&bytes[1..]);
            (Kind::System(system_name(name).unwrap_or(b"")), 1 + name.len())
        }
        b'\\' => {
            let count = bytes[1..].iter().take_while(|byte| (33..=126).contains(*byte)).count();
            (Kind::Name(bytes[1..1 + count].to_vec()), 1 + count)
        }
        first => {
            let length = mark_length(bytes, line);
            (Kind::Mark(first, length), length)
        }
    };
    if !(1..=256).contains(&used) {
        refuse(line, "bad token");
    }
    (kind, used)
}

fn lex(clean: &Clean) -> Vec<Token> {
    let mut tokens = Vec::new();
    let mut at = 0;
    while at < clean.bytes.len() {
        let bytes = &clean.bytes[at..];
        if is_white(bytes[0]) {
            at += 1;
        } else if let Some(count) = attribute_length(bytes) {
            at += count;
        } else {
            let line = clean.lines[at];
            let (kind, used) = token(bytes, line);
            if tokens.len() >= 1_048_576 {
                refuse(line, "too many tokens");
            }
            tokens.push(Token { line, kind });
            at += used;
        }
    }
    tokens
}

fn add(sum: u64, value: u64) -> u64 {
    sum.wrapping_mul(31).wrapping_add(value)
}

fn sum_of_bytes(bytes: &[u8]) -> u64 {
    bytes.iter().fold(0, |sum, byte| add(sum, u64::from(*byte)))
}

fn sum_of_clean(clean: &Clean) -> u64 {
    clean.lines.iter().fold(sum_of_bytes(&clean.bytes), |sum, line| add(sum, u64::from(*line)))
}

fn sum_of_token(token: &Token) -> u64 {
    match &token.kind {
        Kind::Name(text) => add(sum_of_bytes(text), 1),
        Kind::Str(text) => add(sum_of_bytes(text), 2),
        Kind::Number(it) => add(add(add(3, it.width.into()), (it.value % 65536) as u64), (it.wild % 65536) as u64),
        Kind::System(_) => 4,
        Kind::Key(_) => 5,
        Kind::Mark(..) => 6,
    }
}

fn main() {
    for path in env::args().skip(1) {
        let text = fs::read(path).expect("a file");
        for _ in 0..9 {
            let start = Instant::now();
            let clean = preprocess(&text);
            let cleaning = start.elapsed().as_nanos();
            let start = Instant::now();
            let tokens = lex(&clean);
            let lexing = start.elapsed().as_nanos();
            let sum = tokens.iter().fold(0, |sum, it| add(add(sum, u64::from(it.line)), sum_of_token(it)));
            println!("{} {} {} {} {} {}", clean.bytes.len(), sum_of_clean(&clean), tokens.len(), sum, cleaning, lexing);
        }
    }
}
