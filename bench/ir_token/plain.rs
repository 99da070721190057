//! A plain scanner of the same profile in Rust, against which the proved one is timed. It is a bench of
//! its own and no part of the program. `rustc -O plain.rs && ./plain FILE ROUNDS`
#![allow(dead_code)]

use std::time::Instant;

#[derive(Clone, Copy, Debug, PartialEq, Eq)]
enum Kind { Word, Global, Local, Comdat, Label, Int, Str, CStr, Group, Meta, Punct, Dots, Opaque }

#[derive(Clone, Copy, Debug)]
struct Token { kind: Kind, from: u32, to: u32 }

#[derive(Debug)]
enum Refusal { BadByte(u32), OpenString(u32), LeftOut(u32, u32), TooMany(u64) }

const LEFT_NAMES: [&[u8]; 5] = [b"llvm.lifetime.", b"llvm.eh.", b"llvm.coro.", b"llvm.stackrestore", b"llvm.localescape"];
const KEPT_NAMES: [&[u8]; 2] = [b"llvm.lifetime.start.p0", b"llvm.lifetime.end.p0"];

fn is_label(c: u8) -> bool { c.is_ascii_alphanumeric() || matches!(c, b'_' | b'.' | b'$' | b'-') }
fn is_word(c: u8) -> bool { c.is_ascii_alphanumeric() || matches!(c, b'_' | b'.') }

fn is_blank(c: u8) -> bool { matches!(c, b' ' | b'\t' | b'\r' | b'\n') }
fn is_meta(c: u8) -> bool { is_label(c) || c == b'\\' }

fn run(b: &[u8], mut i: usize, class: impl Fn(u8) -> bool) -> usize {
    while i < b.len() && class(b[i]) { i += 1; }
    i
}

fn byte(b: &[u8], i: usize) -> u8 { b.get(i).copied().unwrap_or(0) }

/// The end of the string at i: none where no string is there, an error where it is not closed.
fn string(b: &[u8], i: usize) -> Result<Option<usize>, ()> {
    if byte(b, i) != b'"' { return Ok(None); }
    let end = run(b, i + 1, |c| c != b'"');
    if end < b.len() { Ok(Some(end + 1)) } else { Err(()) }
}

fn name(b: &[u8], i: usize) -> Result<Option<usize>, ()> {
    let first = byte(b, i);
    if first.is_ascii_digit() { Ok(Some(run(b, i, |c| c.is_ascii_digit()))) }
    else if is_label(first) { Ok(Some(run(b, i, is_label))) }
    else { string(b, i) }
}

fn left_word(w: &[u8]) -> bool {
    match w {
        b"float" | b"half" | b"bfloat" | b"double" | b"fp128" | b"x86_fp80" | b"ppc_fp128" | b"x86_mmx" | b"x86_amx" | b"token"
        | b"metadata" | b"vscale" | b"fadd" | b"fsub" | b"fmul" | b"fdiv" | b"frem" | b"fneg" | b"fcmp" | b"fptrunc" | b"fpext"
        | b"fptoui" | b"fptosi" | b"uitofp" | b"sitofp" | b"bitcast" | b"inttoptr" | b"addrspacecast" | b"addrspace" | b"atomic"
        | b"atomicrmw" | b"cmpxchg" | b"fence" | b"asm" | b"musttail" | b"callbr" | b"indirectbr" | b"blockaddress" | b"alias"
        | b"ifunc" | b"thread_local" | b"va_arg" | b"uselistorder" | b"uselistorder_bb" | b"extractvalue" | b"insertvalue"
        | b"extractelement" | b"insertelement" | b"shufflevector" | b"catchswitch" | b"catchpad" | b"cleanuppad" | b"catchret"
        | b"cleanupret" | b"dso_local_equivalent" | b"no_cfi" | b"ptrauth" | b"splat" | b"byval" | b"inalloca" | b"preallocated"
        | b"swifterror" | b"returns_twice" | b"null_pointer_is_valid" => true,
        [b'i', digits @ ..] if !digits.is_empty() && digits.iter().all(u8::is_ascii_digit) => {
            let n = digits.iter().fold(0u32, |n, c| (n * 10 + u32::from(c - b'0')).min(65));
            n == 0 || n > 64
        }
        _ => false,
    }
}

fn read(inside: &[u8]) -> Vec<u8> {
    let hex = |c: u8| (c as char).to_digit(16).map(|d| d as u8);
    let (mut out, mut i) = (Vec::new(), 0);
    while i < inside.len() {
        if inside[i] == b'\\' {
            if byte(inside, i + 1) == b'\\' { out.push(b'\\'); i += 2; continue; }
            if let (Some(h), Some(l)) = (hex(byte(inside, i + 1)), hex(byte(inside, i + 2))) { out.push(h * 16 + l); i += 3; continue; }
        }
        out.push(inside[i]);
        i += 1;
    }
    out
}

fn left_name(name: &[u8]) -> bool {
    let test = |name: &[u8]| LEFT_NAMES.iter().any(|n| name.starts_with(n)) && !KEPT_NAMES.contains(&name);
    if name[0] == b'"' { test(&read(&name[1..name.len() - 1])) } else { test(name) }
}

fn gap(b: &[u8], mut i: usize) -> usize {
    loop {
        i = run(b, i, is_blank);
        if byte(b, i) != b';' { return i; }
        i = run(b, i, |c| c != b'\n' && c != b'\r');
    }
}

fn meta(b: &[u8], i: usize) -> usize {
    if byte(b, i).is_ascii_digit() { run(b, i, |c| c.is_ascii_digit()) } else { run(b, i, is_meta) }
}

/// The end of the closed part at i.
fn closed(b: &[u8], i: usize) -> Option<usize> {
    if !matches!(byte(b, i), b'(' | b'{') { return None; }
    let (mut at, mut open, mut quoted) = (i + 1, 1u64, false);
    while at < b.len() {
        let c = b[at];
        at += 1;
        if quoted { quoted = c != b'"'; continue; }
        match c {
            b'"' => quoted = true,
            b';' | b'/' => return None,
            b'(' | b'[' | b'{' | b'<' => open += 1,
            b')' | b']' | b'}' | b'>' => { open -= 1; if open == 0 { return Some(at); } }
            _ => {}
        }
    }
    None
}

/// The end of the Opaque at i: none where none begins, an error where it has no end.
fn opaque(b: &[u8], i: usize) -> Result<Option<usize>, ()> {
    match b[i] {
        b'!' => {
            let name = meta(b, i + 1);
            let equals = run(b, name, is_blank);
            if name == i + 1 || byte(b, equals) != b'=' { return Ok(None); }
            let mut mark = run(b, equals + 1, is_blank);
            if b[mark..].starts_with(b"distinct") { mark = run(b, mark + 8, is_blank); }
            if byte(b, mark) != b'!' { return Err(()); }
            closed(b, run(b, mark + 1, is_meta)).map(Some).ok_or(())
        }
        b'#' if b[i..].starts_with(b"#dbg_") => closed(b, run(b, i + 5, is_word)).map(Some).ok_or(()),
        b'$' => {
            let Ok(Some(end)) = name(b, i + 1) else { return Ok(None) };
            let equals = run(b, end, is_blank);
            if byte(b, equals) != b'=' { return Ok(None); }
            let word = run(b, equals + 1, is_blank);
            if !b[word..].starts_with(b"comdat") || !is_blank(byte(b, word + 6)) { return Ok(None); }
            let choice = run(b, word + 6, is_blank);
            let letter = byte(b, choice);
            Ok((letter.is_ascii_alphabetic() || letter == b'_').then(|| run(b, choice, is_word)))
        }
        _ => Ok(None),
    }
}

/// Whether the bytes write a name.
fn named(z: &[u8]) -> bool {
    if z.iter().all(u8::is_ascii_digit) { return z.len() <= 9; }
    if z[0] != b'"' { return true; }
    let read = read(&z[1..z.len() - 1]);
    !read.is_empty() && !read.contains(&0)
}

/// The token at i, which bears a name where its kind has one.
fn token(b: &[u8], i: usize, labels: &mut usize) -> Result<(Kind, usize), Refusal> {
    let (kind, end) = longest(b, i, labels)?;
    let good = match kind {
        Kind::Global | Kind::Local | Kind::Comdat | Kind::Group => named(&b[i + 1..end]),
        Kind::Label => named(&b[i..end - 1]),
        _ => true,
    };
    if good { Ok((kind, end)) } else { Err(Refusal::BadByte(i as u32)) }
}

fn longest(b: &[u8], i: usize, labels: &mut usize) -> Result<(Kind, usize), Refusal> {
    let bad = Refusal::BadByte(i as u32);
    let open = |()| Refusal::OpenString(i as u32);
    match opaque(b, i) { Ok(None) => {} Ok(Some(end)) => return Ok((Kind::Opaque, end)), Err(()) => return Err(bad) }
    let first = b[i];
    if is_label(first) {
        if *labels <= i { *labels = run(b, i, is_label); }
        if byte(b, *labels) == b':' { return Ok((Kind::Label, *labels + 1)); }
    }
    let sigil = |kind| match name(b, i + 1).map_err(open)? { Some(end) => Ok((kind, end)), None => Err(Refusal::BadByte(i as u32)) };
    match first {
        b'@' => sigil(Kind::Global),
        b'%' => sigil(Kind::Local),
        b'$' => sigil(Kind::Comdat),
        b'"' => {
            let end = string(b, i).map_err(open)?.unwrap_or(i);
            if byte(b, end) == b':' { Ok((Kind::Label, end + 1)) } else { Ok((Kind::Str, end)) }
        }
        b'c' if byte(b, i + 1) == b'"' => Ok((Kind::CStr, string(b, i + 1).map_err(open)?.unwrap_or(i))),
        b'#' => match run(b, i + 1, |c| c.is_ascii_digit()) { end if end > i + 1 => Ok((Kind::Group, end)), _ => Err(bad) },
        b'!' => match meta(b, i + 1) { end if end > i + 1 => Ok((Kind::Meta, end)), _ => Err(bad) },
        b'-' => match run(b, i + 1, |c| c.is_ascii_digit()) { end if end > i + 1 => Ok((Kind::Int, end)), _ => Err(bad) },
        b'.' if b[i..].starts_with(b"...") => Ok((Kind::Dots, i + 3)),
        b'(' | b')' | b'[' | b']' | b'{' | b'}' | b'<' | b'>' | b',' | b'=' => Ok((Kind::Punct, i + 1)),
        c if c.is_ascii_digit() => Ok((Kind::Int, run(b, i, |c| c.is_ascii_digit()))),
        c if c.is_ascii_alphabetic() || c == b'_' => Ok((Kind::Word, run(b, i, is_word))),
        _ => Err(bad),
    }
}

fn tokens(b: &[u8]) -> Result<Vec<Token>, Refusal> {
    let (mut out, mut count) = (Vec::new(), 0u64);
    let mut at = gap(b, 0);
    let mut labels = 0;
    while at < b.len() {
        let (kind, end) = token(b, at, &mut labels)?;
        let left = match kind {
            Kind::Word => left_word(&b[at..end]),
            Kind::Global => left_name(&b[at + 1..end]),
            Kind::Punct if b[at] == b'<' => {
                let next = gap(b, end);
                next < b.len() && matches!(token(b, next, &mut next.clone()), Ok((Kind::Int, _)))
            }
            _ => false,
        };
        if left { return Err(Refusal::LeftOut(at as u32, end as u32)); }
        if count < 16_000_000 { out.push(Token { kind, from: at as u32, to: end as u32 }); }
        count += 1;
        at = gap(b, end);
    }
    if count > 16_000_000 { Err(Refusal::TooMany(count)) } else { Ok(out) }
}

fn main() {
    let mut args = std::env::args().skip(1);
    let text = std::fs::read(args.next().expect("a file")).expect("the file's bytes");
    let rounds = args.next().map_or(5, |n| n.parse().expect("a number of rounds"));
    for _ in 0..rounds {
        let start = Instant::now();
        let answer = tokens(&text);
        let time = start.elapsed();
        match answer {
            Ok(toks) => println!("plain {} ms, {} tokens, last {:?}", time.as_millis(), toks.len(), toks.last().map(|t| (t.kind, t.from, t.to))),
            Err(refusal) => println!("plain {} ms, {refusal:?}", time.as_millis()),
        }
    }
}
