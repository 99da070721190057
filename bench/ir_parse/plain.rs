//! A plain parser of the same grammar in Rust, against which the proved one is timed. It is a bench of its own and no
//! part of the program. `rustc -O plain.rs && ./plain FILE parse` prints the nanoseconds that the parser took, from the
//! tokens on, and those for which it had a processor meanwhile, how many tokens the text has and how many entities the
//! tree; with `read` it only makes the tokens.
#![allow(dead_code)]

use std::time::Instant;

#[derive(Clone, Copy, Debug, PartialEq, Eq)]
enum Kind { Word, Global, Local, Comdat, Label, Int, Str, CStr, Group, Meta, Punct, Dots, Opaque }

#[derive(Clone, Copy, Debug)]
struct Token { kind: Kind, from: u32, to: u32 }

/// The place at which the text is no module.
#[derive(Debug)]
struct Refused(usize);

type Parsed<T> = Result<T, Refused>;

// ---- The scanner, which is not timed.

fn is_label(c: u8) -> bool { c.is_ascii_alphanumeric() || matches!(c, b'_' | b'.' | b'$' | b'-') }
fn is_word(c: u8) -> bool { c.is_ascii_alphanumeric() || matches!(c, b'_' | b'.') }

fn run(text: &[u8], from: usize, class: impl Fn(u8) -> bool) -> usize {
    text[from..].iter().position(|c| !class(*c)).map_or(text.len(), |n| from + n)
}

/// The end of a string that opens at this place.
fn string(text: &[u8], from: usize) -> Parsed<usize> {
    let end = run(text, from + 1, |c| c != b'"');
    if end < text.len() { Ok(end + 1) } else { Err(Refused(from)) }
}

fn name(text: &[u8], from: usize) -> Parsed<usize> {
    match text.get(from) {
        Some(b'"') => string(text, from),
        Some(c) if c.is_ascii_digit() => Ok(run(text, from, |c| c.is_ascii_digit())),
        Some(c) if is_label(*c) => Ok(run(text, from, is_label)),
        _ => Err(Refused(from)),
    }
}

fn past_blanks(text: &[u8], from: usize) -> usize {
    let mut at = from;
    loop {
        at = run(text, at, |c| c.is_ascii_whitespace());
        if text.get(at) != Some(&b';') { return at; }
        at = run(text, at, |c| c != b'\n');
    }
}

fn is_opaque(text: &[u8], at: usize) -> bool {
    let before = &text[..at];
    match text[at] {
        b'!' | b'$' => before.last().is_none_or(|c| *c == b'\n'),
        b'#' => text[at..].starts_with(b"#dbg_") && before.iter().rev().find(|c| !matches!(c, b' ' | b'\t')).is_none_or(|c| *c == b'\n'),
        _ => false,
    }
}

fn token(text: &[u8], at: usize) -> Parsed<(Kind, usize)> {
    if is_opaque(text, at) { return Ok((Kind::Opaque, run(text, at, |c| c != b'\n'))); }
    let first = text[at];
    if is_label(first) {
        let end = run(text, at, is_label);
        if text.get(end) == Some(&b':') { return Ok((Kind::Label, end + 1)); }
    }
    let some = |kind, end| if end > at + 1 { Ok((kind, end)) } else { Err(Refused(at)) };
    match first {
        b'@' => Ok((Kind::Global, name(text, at + 1)?)),
        b'%' => Ok((Kind::Local, name(text, at + 1)?)),
        b'$' => Ok((Kind::Comdat, name(text, at + 1)?)),
        b'"' => {
            let end = string(text, at)?;
            if text.get(end) == Some(&b':') { Ok((Kind::Label, end + 1)) } else { Ok((Kind::Str, end)) }
        }
        b'c' if text.get(at + 1) == Some(&b'"') => Ok((Kind::CStr, string(text, at + 1)?)),
        b'#' => some(Kind::Group, run(text, at + 1, |c| c.is_ascii_digit())),
        b'!' => some(Kind::Meta, run(text, at + 1, |c| is_label(c) || c == b'\\')),
        b'-' => some(Kind::Int, run(text, at + 1, |c| c.is_ascii_digit())),
        b'.' if text[at..].starts_with(b"...") => Ok((Kind::Dots, at + 3)),
        b'(' | b')' | b'[' | b']' | b'{' | b'}' | b'<' | b'>' | b',' | b'=' => Ok((Kind::Punct, at + 1)),
        c if c.is_ascii_digit() => Ok((Kind::Int, run(text, at, |c| c.is_ascii_digit()))),
        c if c.is_ascii_alphabetic() || c == b'_' => Ok((Kind::Word, run(text, at, is_word))),
        _ => Err(Refused(at)),
    }
}

fn tokens(text: &[u8]) -> Parsed<Vec<Token>> {
    let mut found = Vec::new();
    let mut at = past_blanks(text, 0);
    while at < text.len() {
        let (kind, end) = token(text, at)?;
        found.push(Token { kind, from: at as u32, to: end as u32 });
        at = past_blanks(text, end);
    }
    Ok(found)
}

// ---- What a token is to the grammar.

#[derive(Clone, Copy, Debug, PartialEq, Eq)]
enum Terminal {
    LeftParen, RightParen, LeftBracket, RightBracket, LeftBrace, RightBrace, Less, Greater, Comma, Equals,
    Global, Local, Comdat, Label, Int, Str, CStr, Group, Meta, Dots, Opaque,
    SourceFilename, Target, TargetPart, TypeWord, OpaqueWord, Attributes, Variable, Declare, Define, Linkage, Hword,
    Unnamed, ExternallyInitialized, Section, Partition, CodeModel, Align, ComdatWord, Gc, Extra, CcNumber, CcWord,
    Void, IntType, Ptr, Times, True, False, Null, Undef, Poison, Zero,
    GetElementPtr, ConstCast, Cast, ConstBinop, Binop, Icmp, Pred, Select, Freeze, Phi, Alloca, Load, Volatile, Store,
    Tail, Call, LandingPad, Cleanup, ClauseWord, To, LabelWord, Unwind, Invoke, Ret, Br, Switch, Unreachable, Resume,
    Nuw, Iflag, Gepflag, InRange, Word,
}

use Terminal as T;

fn word_terminal(word: &[u8]) -> Terminal {
    match word {
        b"source_filename" => T::SourceFilename,
        b"target" => T::Target,
        b"datalayout" | b"triple" => T::TargetPart,
        b"type" => T::TypeWord,
        b"opaque" => T::OpaqueWord,
        b"attributes" => T::Attributes,
        b"global" | b"constant" => T::Variable,
        b"declare" => T::Declare,
        b"define" => T::Define,
        b"private" | b"internal" | b"available_externally" | b"linkonce" | b"weak" | b"common" | b"appending" | b"extern_weak"
        | b"linkonce_odr" | b"weak_odr" | b"external" => T::Linkage,
        b"dso_local" | b"dso_preemptable" | b"default" | b"hidden" | b"protected" | b"dllimport" | b"dllexport" => T::Hword,
        b"unnamed_addr" | b"local_unnamed_addr" => T::Unnamed,
        b"externally_initialized" => T::ExternallyInitialized,
        b"section" => T::Section,
        b"partition" => T::Partition,
        b"code_model" => T::CodeModel,
        b"align" => T::Align,
        b"comdat" => T::ComdatWord,
        b"gc" => T::Gc,
        b"prefix" | b"prologue" | b"personality" => T::Extra,
        b"cc" => T::CcNumber,
        b"void" => T::Void,
        b"ptr" => T::Ptr,
        b"x" => T::Times,
        b"true" => T::True,
        b"false" => T::False,
        b"null" => T::Null,
        b"undef" => T::Undef,
        b"poison" => T::Poison,
        b"zeroinitializer" => T::Zero,
        b"getelementptr" => T::GetElementPtr,
        b"ptrtoint" | b"trunc" => T::ConstCast,
        b"zext" | b"sext" => T::Cast,
        b"add" | b"sub" | b"xor" => T::ConstBinop,
        b"mul" | b"udiv" | b"sdiv" | b"urem" | b"srem" | b"shl" | b"lshr" | b"ashr" | b"and" | b"or" => T::Binop,
        b"icmp" => T::Icmp,
        b"eq" | b"ne" | b"ugt" | b"uge" | b"ult" | b"ule" | b"sgt" | b"sge" | b"slt" | b"sle" => T::Pred,
        b"select" => T::Select,
        b"freeze" => T::Freeze,
        b"phi" => T::Phi,
        b"alloca" => T::Alloca,
        b"load" => T::Load,
        b"volatile" => T::Volatile,
        b"store" => T::Store,
        b"tail" | b"notail" => T::Tail,
        b"call" => T::Call,
        b"landingpad" => T::LandingPad,
        b"cleanup" => T::Cleanup,
        b"catch" | b"filter" => T::ClauseWord,
        b"to" => T::To,
        b"label" => T::LabelWord,
        b"unwind" => T::Unwind,
        b"invoke" => T::Invoke,
        b"ret" => T::Ret,
        b"br" => T::Br,
        b"switch" => T::Switch,
        b"unreachable" => T::Unreachable,
        b"resume" => T::Resume,
        b"nuw" => T::Nuw,
        b"nsw" | b"exact" | b"disjoint" | b"nneg" | b"samesign" => T::Iflag,
        b"inbounds" | b"nusw" => T::Gepflag,
        b"inrange" => T::InRange,
        [b'i', digits @ ..] if !digits.is_empty() && digits.iter().all(u8::is_ascii_digit) => T::IntType,
        [_, .., b'c', b'c'] => T::CcWord,
        _ => T::Word,
    }
}

fn terminal(text: &[u8], token: Token) -> Terminal {
    let bytes = &text[token.from as usize..token.to as usize];
    match token.kind {
        Kind::Word => word_terminal(bytes),
        Kind::Global => T::Global,
        Kind::Local => T::Local,
        Kind::Comdat => T::Comdat,
        Kind::Label => T::Label,
        Kind::Int => T::Int,
        Kind::Str => T::Str,
        Kind::CStr => T::CStr,
        Kind::Group => T::Group,
        Kind::Meta => T::Meta,
        Kind::Dots => T::Dots,
        Kind::Opaque => T::Opaque,
        Kind::Punct => match bytes[0] {
            b'(' => T::LeftParen,
            b')' => T::RightParen,
            b'[' => T::LeftBracket,
            b']' => T::RightBracket,
            b'{' => T::LeftBrace,
            b'}' => T::RightBrace,
            b'<' => T::Less,
            b'>' => T::Greater,
            b',' => T::Comma,
            _ => T::Equals,
        },
    }
}

// ---- The tree.

type Leaf = u32;

enum Ty { Void(Leaf), Int(Leaf), Ptr(Leaf), Array { open: Leaf, count: Leaf, elem: Box<Ty> }, Struct { open: Leaf, parts: Vec<Ty> }, Packed { open: Leaf, parts: Vec<Ty> }, Named(Leaf) }
enum Ftype { Empty, Dots(Leaf), Listed { types: Vec<Ty>, dots: Option<Leaf> } }
enum Inner { Token(Leaf), Bracket { open: Leaf, inside: Vec<Inner> } }
enum Fattr { Word(Leaf), Bracket { word: Leaf, inside: Vec<Inner>, close: Leaf }, Str { key: Leaf, value: Option<Leaf> } }
enum Rattr { Align { word: Leaf, bytes: Leaf }, AlignIn { word: Leaf, bytes: Leaf, close: Leaf }, Fattr(Fattr) }
enum Gattr { Word { word: Leaf, value: Leaf }, Align { word: Leaf, value: Leaf }, Fattr(Fattr) }
enum Word { Fattr(Fattr), Group(Leaf) }
enum Cc { Number { word: Leaf, number: Leaf }, Word(Leaf) }
struct Comdat { word: Leaf, name: Option<Leaf> }
struct Attach { kind: Leaf, node: Leaf }
enum Gepflag { Word(Leaf), InRange { word: Leaf, from: Leaf, to: Leaf } }
struct Tconst { ty: Ty, value: Const }
enum Const {
    Int(Leaf), True(Leaf), False(Leaf), Null(Leaf), Undef(Leaf), Poison(Leaf), Zero(Leaf), Global(Leaf), CStr(Leaf),
    Array { open: Leaf, parts: Vec<Tconst> },
    Struct { open: Leaf, parts: Vec<Tconst> },
    Packed { open: Leaf, parts: Vec<Tconst> },
    GetElementPtr { op: Leaf, flags: Vec<Gepflag>, elem: Box<Ty>, operands: Vec<Tconst> },
    Cast { op: Leaf, of: Box<Tconst>, to: Box<Ty> },
    Binop { op: Leaf, flags: Vec<Leaf>, left: Box<Tconst>, right: Box<Tconst> },
}
enum Value { Local(Leaf), Const(Box<Const>) }
struct Tvalue { ty: Ty, value: Value }
struct Icmp { op: Leaf, flags: Vec<Leaf>, pred: Leaf, ty: Ty, left: Value, right: Value }
struct Select { op: Leaf, on: Tvalue, yes: Tvalue, no: Tvalue }
struct Alloca { op: Leaf, ty: Ty, count: Option<Tvalue>, align: Option<Leaf> }
struct Store { op: Leaf, volatile: Option<Leaf>, value: Tvalue, to: Tvalue, align: Option<Leaf> }
struct Arm { value: Value, from: Leaf }
struct Arg { ty: Ty, words: Vec<Rattr>, value: Value }
struct Call { tail: Option<Leaf>, op: Leaf, cc: Option<Cc>, result_words: Vec<Rattr>, result: Ty, params: Option<Ftype>, callee: Value, args: Vec<Arg>, close: Leaf, attributes: Vec<Word> }
struct Clause { word: Leaf, value: Tconst }
enum Instr {
    Binop { op: Leaf, flags: Vec<Leaf>, ty: Ty, left: Value, right: Value },
    Icmp(Box<Icmp>),
    Cast { op: Leaf, flags: Vec<Leaf>, of: Tvalue, to: Ty },
    Select(Box<Select>),
    Freeze { op: Leaf, of: Tvalue },
    Phi { op: Leaf, ty: Ty, arms: Vec<Arm> },
    Alloca(Box<Alloca>),
    Load { op: Leaf, volatile: Option<Leaf>, ty: Ty, from: Tvalue, align: Option<Leaf> },
    Store(Box<Store>),
    GetElementPtr { op: Leaf, flags: Vec<Gepflag>, elem: Ty, operands: Vec<Tvalue> },
    Call(Box<Call>),
    Cleanup { op: Leaf, ty: Ty, cleanup: Leaf, clauses: Vec<Clause> },
    LandingPad { op: Leaf, ty: Ty, clauses: Vec<Clause> },
}
struct Invoke { op: Leaf, cc: Option<Cc>, result_words: Vec<Rattr>, result: Ty, params: Option<Ftype>, callee: Value, args: Vec<Arg>, close: Leaf, attributes: Vec<Word>, normal: Leaf, unwind: Leaf }
struct Case { ty: Ty, value: Leaf, to: Leaf }
struct Switch { op: Leaf, on: Tvalue, other: Leaf, cases: Vec<Case> }
enum Term {
    RetVoid { op: Leaf },
    Ret { op: Leaf, of: Box<Tvalue> },
    Jump { op: Leaf, to: Leaf },
    Branch { op: Leaf, on: Box<Tvalue>, yes: Leaf, no: Leaf },
    Switch(Box<Switch>),
    Unreachable { op: Leaf },
    Resume { op: Leaf, of: Box<Tvalue> },
}
enum Line { Opaque(Leaf), Instr { result: Option<Leaf>, instr: Box<Instr>, attached: Vec<Attach> } }
enum Last { Term { term: Term, attached: Vec<Attach>, after: Vec<Leaf> }, Invoke { result: Option<Leaf>, invoke: Box<Invoke>, attached: Vec<Attach>, after: Vec<Leaf> } }
struct First { label: Option<Leaf>, lines: Vec<Line>, last: Last }
struct Block { label: Leaf, lines: Vec<Line>, last: Last }
struct Body { first: First, blocks: Vec<Block> }
struct Param { ty: Ty, words: Vec<Rattr>, name: Option<Leaf> }
enum Params { Empty, Dots(Leaf), Listed { params: Vec<Param>, dots: Option<Leaf> } }
enum Ftail { Section { word: Leaf, name: Leaf }, Partition { word: Leaf, name: Leaf }, Gc { word: Leaf, name: Leaf }, Align { word: Leaf, bytes: Leaf }, Comdat(Comdat), Extra { word: Leaf, value: Tconst }, Attach(Attach) }
struct Header { linkage: Option<Leaf>, words: Vec<Leaf>, cc: Option<Cc>, result_words: Vec<Rattr>, result: Ty, name: Leaf, params: Params, close: Leaf, unnamed: Option<Leaf>, attributes: Vec<Word>, tails: Vec<Ftail> }
enum Gtail { Section { word: Leaf, name: Leaf }, Partition { word: Leaf, name: Leaf }, CodeModel { word: Leaf, name: Leaf }, Align { word: Leaf, bytes: Leaf }, Comdat(Comdat), Attach(Attach), Word(Leaf) }
enum TypeBody { Ty(Ty), Opaque(Leaf) }
struct GlobalVar { name: Leaf, linkage: Option<Leaf>, words: Vec<Leaf>, kind: Leaf, ty: Ty, initial: Option<Const>, tails: Vec<Gtail>, groups: Vec<Leaf> }
struct Declare { word: Leaf, attached: Vec<Attach>, header: Header }
struct Define { word: Leaf, header: Header, body: Body, close: Leaf }
enum Entity { Opaque(Leaf), SourceFilename { name: Leaf }, Target { which: Leaf, text: Leaf }, Named { name: Leaf, body: Box<TypeBody> }, Attributes { group: Leaf, words: Vec<Gattr> }, GlobalVar(Box<GlobalVar>), Declare(Box<Declare>), Define(Box<Define>) }
struct Tree { entities: Vec<Entity> }

/// What is called and what is passed to it, of a call and of an invoke.
struct Callee { cc: Option<Cc>, result_words: Vec<Rattr>, result: Ty, params: Option<Ftype>, callee: Value, args: Vec<Arg>, close: Leaf, attributes: Vec<Word> }

// ---- The parser: one terminal tells the production, two where a comma or a name is before it.

struct Parser<'a> { terminals: &'a [Terminal], at: usize }

impl Parser<'_> {
    fn peek(&self) -> Option<Terminal> { self.terminals.get(self.at).copied() }
    fn second(&self) -> Option<Terminal> { self.terminals.get(self.at + 1).copied() }

    fn take(&mut self) -> Leaf {
        self.at += 1;
        (self.at - 1) as Leaf
    }

    fn eat(&mut self, terminal: Terminal) -> Option<Leaf> {
        if self.peek() == Some(terminal) { Some(self.take()) } else { None }
    }

    fn expect(&mut self, terminal: Terminal) -> Parsed<Leaf> {
        self.eat(terminal).ok_or(Refused(self.at))
    }

    fn fail<T>(&self) -> Parsed<T> { Err(Refused(self.at)) }

    /// `item,*` and the terminal that closes it.
    fn list<I>(&mut self, close: Terminal, item: impl Fn(&mut Self) -> Parsed<I>) -> Parsed<(Vec<I>, Leaf)> {
        let mut items = Vec::new();
        if let Some(end) = self.eat(close) { return Ok((items, end)); }
        loop {
            items.push(item(self)?);
            if self.eat(T::Comma).is_none() { break; }
        }
        Ok((items, self.expect(close)?))
    }

    fn leaves(&mut self, is: impl Fn(Terminal) -> bool) -> Vec<Leaf> {
        let mut found = Vec::new();
        while self.peek().is_some_and(&is) { found.push(self.take()); }
        found
    }

    // Types.

    fn ty(&mut self) -> Parsed<Ty> {
        Ok(match self.peek() {
            Some(T::Void) => Ty::Void(self.take()),
            Some(T::IntType) => Ty::Int(self.take()),
            Some(T::Ptr) => Ty::Ptr(self.take()),
            Some(T::Local) => Ty::Named(self.take()),
            Some(T::LeftBracket) => {
                let open = self.take();
                let count = self.expect(T::Int)?;
                self.expect(T::Times)?;
                let elem = Box::new(self.ty()?);
                self.expect(T::RightBracket)?;
                Ty::Array { open, count, elem }
            }
            Some(T::LeftBrace) => Ty::Struct { open: self.take(), parts: self.list(T::RightBrace, Self::ty)?.0 },
            Some(T::Less) => {
                let open = self.take();
                self.expect(T::LeftBrace)?;
                let (parts, _) = self.list(T::RightBrace, Self::ty)?;
                self.expect(T::Greater)?;
                Ty::Packed { open, parts }
            }
            _ => return self.fail(),
        })
    }

    /// The parameters of a function's type, behind its opening parenthesis.
    fn ftype(&mut self) -> Parsed<Ftype> {
        let found = match self.peek() {
            Some(T::RightParen) => Ftype::Empty,
            Some(T::Dots) => Ftype::Dots(self.take()),
            _ => {
                let mut types = vec![self.ty()?];
                let mut dots = None;
                while dots.is_none() && self.eat(T::Comma).is_some() {
                    dots = self.eat(T::Dots);
                    if dots.is_none() { types.push(self.ty()?); }
                }
                Ftype::Listed { types, dots }
            }
        };
        self.expect(T::RightParen)?;
        Ok(found)
    }

    // Attributes.

    fn inners(&mut self) -> Parsed<Vec<Inner>> {
        let mut found = Vec::new();
        loop {
            match self.peek() {
                None | Some(T::RightParen) => return Ok(found),
                Some(T::LeftParen) => {
                    let open = self.take();
                    let inside = self.inners()?;
                    self.expect(T::RightParen)?;
                    found.push(Inner::Bracket { open, inside });
                }
                Some(_) => found.push(Inner::Token(self.take())),
            }
        }
    }

    fn fattr(&mut self) -> Parsed<Option<Fattr>> {
        match self.peek() {
            Some(T::Word | T::Nuw | T::Iflag | T::Gepflag | T::InRange) => {
                let word = self.take();
                if self.eat(T::LeftParen).is_none() { return Ok(Some(Fattr::Word(word))); }
                let inside = self.inners()?;
                let close = self.expect(T::RightParen)?;
                Ok(Some(Fattr::Bracket { word, inside, close }))
            }
            Some(T::Str) => {
                let key = self.take();
                let value = match self.eat(T::Equals) {
                    Some(_) => Some(self.expect(T::Str)?),
                    None => None,
                };
                Ok(Some(Fattr::Str { key, value }))
            }
            _ => Ok(None),
        }
    }

    fn rattrs(&mut self) -> Parsed<Vec<Rattr>> {
        let mut found = Vec::new();
        loop {
            if let Some(word) = self.eat(T::Align) {
                found.push(if self.eat(T::LeftParen).is_some() {
                    Rattr::AlignIn { word, bytes: self.expect(T::Int)?, close: self.expect(T::RightParen)? }
                } else {
                    Rattr::Align { word, bytes: self.expect(T::Int)? }
                });
            } else if let Some(attribute) = self.fattr()? {
                found.push(Rattr::Fattr(attribute));
            } else {
                return Ok(found);
            }
        }
    }

    fn words(&mut self) -> Parsed<Vec<Word>> {
        let mut found = Vec::new();
        loop {
            if let Some(group) = self.eat(T::Group) {
                found.push(Word::Group(group));
            } else if let Some(attribute) = self.fattr()? {
                found.push(Word::Fattr(attribute));
            } else {
                return Ok(found);
            }
        }
    }

    fn gattrs(&mut self) -> Parsed<Vec<Gattr>> {
        let mut found = Vec::new();
        loop {
            let equals = self.second() == Some(T::Equals);
            if self.peek() == Some(T::Align) {
                let word = self.take();
                self.expect(T::Equals)?;
                found.push(Gattr::Align { word, value: self.expect(T::Int)? });
            } else if equals && self.peek() != Some(T::Str) {
                let word = self.take();
                self.take();
                found.push(Gattr::Word { word, value: self.expect(T::Int)? });
            } else if let Some(attribute) = self.fattr()? {
                found.push(Gattr::Fattr(attribute));
            } else {
                return Ok(found);
            }
        }
    }

    fn cc(&mut self) -> Parsed<Option<Cc>> {
        Ok(match self.peek() {
            Some(T::CcWord) => Some(Cc::Word(self.take())),
            Some(T::CcNumber) => Some(Cc::Number { word: self.take(), number: self.expect(T::Int)? }),
            _ => None,
        })
    }

    fn comdat(&mut self) -> Parsed<Comdat> {
        let word = self.take();
        if self.eat(T::LeftParen).is_none() { return Ok(Comdat { word, name: None }); }
        let name = Some(self.expect(T::Comdat)?);
        self.expect(T::RightParen)?;
        Ok(Comdat { word, name })
    }

    fn attach(&mut self) -> Parsed<Attach> {
        Ok(Attach { kind: self.expect(T::Meta)?, node: self.expect(T::Meta)? })
    }

    fn attachments(&mut self) -> Parsed<Vec<Attach>> {
        let mut found = Vec::new();
        while self.eat(T::Comma).is_some() { found.push(self.attach()?); }
        Ok(found)
    }

    // Constants and values.

    fn iflags(&mut self) -> Vec<Leaf> {
        self.leaves(|terminal| matches!(terminal, T::Nuw | T::Iflag))
    }

    fn gepflags(&mut self) -> Parsed<Vec<Gepflag>> {
        let mut found = Vec::new();
        loop {
            match self.peek() {
                Some(T::Nuw | T::Gepflag) => found.push(Gepflag::Word(self.take())),
                Some(T::InRange) => {
                    let word = self.take();
                    self.expect(T::LeftParen)?;
                    let from = self.expect(T::Int)?;
                    self.expect(T::Comma)?;
                    let to = self.expect(T::Int)?;
                    self.expect(T::RightParen)?;
                    found.push(Gepflag::InRange { word, from, to });
                }
                _ => return Ok(found),
            }
        }
    }

    fn constant(&mut self) -> Parsed<Option<Const>> {
        let Some(first) = self.peek() else { return Ok(None) };
        Ok(Some(match first {
            T::Int => Const::Int(self.take()),
            T::True => Const::True(self.take()),
            T::False => Const::False(self.take()),
            T::Null => Const::Null(self.take()),
            T::Undef => Const::Undef(self.take()),
            T::Poison => Const::Poison(self.take()),
            T::Zero => Const::Zero(self.take()),
            T::Global => Const::Global(self.take()),
            T::CStr => Const::CStr(self.take()),
            T::LeftBracket => Const::Array { open: self.take(), parts: self.list(T::RightBracket, Self::tconst)?.0 },
            T::LeftBrace => Const::Struct { open: self.take(), parts: self.list(T::RightBrace, Self::tconst)?.0 },
            T::Less => {
                let open = self.take();
                self.expect(T::LeftBrace)?;
                let (parts, _) = self.list(T::RightBrace, Self::tconst)?;
                self.expect(T::Greater)?;
                Const::Packed { open, parts }
            }
            T::GetElementPtr => {
                let op = self.take();
                let flags = self.gepflags()?;
                self.expect(T::LeftParen)?;
                let elem = Box::new(self.ty()?);
                self.expect(T::Comma)?;
                let (operands, _) = self.list(T::RightParen, Self::tconst)?;
                if operands.is_empty() { return self.fail(); }
                Const::GetElementPtr { op, flags, elem, operands }
            }
            T::ConstCast => {
                let op = self.take();
                self.expect(T::LeftParen)?;
                let of = Box::new(self.tconst()?);
                self.expect(T::To)?;
                let to = Box::new(self.ty()?);
                self.expect(T::RightParen)?;
                Const::Cast { op, of, to }
            }
            T::ConstBinop => {
                let op = self.take();
                let flags = self.iflags();
                self.expect(T::LeftParen)?;
                let left = Box::new(self.tconst()?);
                self.expect(T::Comma)?;
                let right = Box::new(self.tconst()?);
                self.expect(T::RightParen)?;
                Const::Binop { op, flags, left, right }
            }
            _ => return Ok(None),
        }))
    }

    fn tconst(&mut self) -> Parsed<Tconst> {
        let ty = self.ty()?;
        let value = self.constant()?.ok_or(Refused(self.at))?;
        Ok(Tconst { ty, value })
    }

    fn value(&mut self) -> Parsed<Value> {
        if let Some(name) = self.eat(T::Local) { return Ok(Value::Local(name)); }
        match self.constant()? {
            Some(constant) => Ok(Value::Const(Box::new(constant))),
            None => self.fail(),
        }
    }

    fn tvalue(&mut self) -> Parsed<Tvalue> {
        Ok(Tvalue { ty: self.ty()?, value: self.value()? })
    }

    fn next_tvalue(&mut self) -> Parsed<Tvalue> {
        self.expect(T::Comma)?;
        self.tvalue()
    }

    // Instructions.

    fn two(&mut self) -> Parsed<(Ty, Value, Value)> {
        let ty = self.ty()?;
        let left = self.value()?;
        self.expect(T::Comma)?;
        Ok((ty, left, self.value()?))
    }

    fn align(&mut self) -> Parsed<Option<Leaf>> {
        if self.peek() != Some(T::Comma) || self.second() != Some(T::Align) { return Ok(None); }
        self.at += 2;
        Ok(Some(self.expect(T::Int)?))
    }

    /// Whether the list goes on behind this comma: an attachment is no part of it.
    fn goes_on(&mut self) -> bool {
        let more = self.peek() == Some(T::Comma) && self.second() != Some(T::Meta);
        if more { self.at += 1; }
        more
    }

    fn instr(&mut self) -> Parsed<Instr> {
        let Some(first) = self.peek() else { return self.fail() };
        match first {
            T::ConstBinop | T::Binop => {
                let op = self.take();
                let flags = self.iflags();
                let (ty, left, right) = self.two()?;
                Ok(Instr::Binop { op, flags, ty, left, right })
            }
            T::Icmp => {
                let op = self.take();
                let flags = self.iflags();
                let pred = self.expect(T::Pred)?;
                let (ty, left, right) = self.two()?;
                Ok(Instr::Icmp(Box::new(Icmp { op, flags, pred, ty, left, right })))
            }
            T::ConstCast | T::Cast => {
                let op = self.take();
                let flags = self.iflags();
                let of = self.tvalue()?;
                self.expect(T::To)?;
                Ok(Instr::Cast { op, flags, of, to: self.ty()? })
            }
            T::Select => Ok(Instr::Select(Box::new(Select { op: self.take(), on: self.tvalue()?, yes: self.next_tvalue()?, no: self.next_tvalue()? }))),
            T::Freeze => Ok(Instr::Freeze { op: self.take(), of: self.tvalue()? }),
            T::Phi => self.phi(),
            T::Alloca => self.alloca(),
            T::Load => Ok(Instr::Load { op: self.take(), volatile: self.eat(T::Volatile), ty: self.ty()?, from: self.next_tvalue()?, align: self.align()? }),
            T::Store => Ok(Instr::Store(Box::new(Store { op: self.take(), volatile: self.eat(T::Volatile), value: self.tvalue()?, to: self.next_tvalue()?, align: self.align()? }))),
            T::GetElementPtr => self.getelementptr(),
            T::LandingPad => self.landing_pad(),
            T::Tail | T::Call => self.call(),
            _ => self.fail(),
        }
    }

    fn phi(&mut self) -> Parsed<Instr> {
        let op = self.take();
        let ty = self.ty()?;
        let mut arms = vec![self.arm()?];
        while self.goes_on() { arms.push(self.arm()?); }
        Ok(Instr::Phi { op, ty, arms })
    }

    fn arm(&mut self) -> Parsed<Arm> {
        self.expect(T::LeftBracket)?;
        let value = self.value()?;
        self.expect(T::Comma)?;
        let from = self.expect(T::Local)?;
        self.expect(T::RightBracket)?;
        Ok(Arm { value, from })
    }

    fn alloca(&mut self) -> Parsed<Instr> {
        let op = self.take();
        let ty = self.ty()?;
        let count = if self.second() != Some(T::Align) && self.goes_on() { Some(self.tvalue()?) } else { None };
        let align = self.align()?;
        Ok(Instr::Alloca(Box::new(Alloca { op, ty, count, align })))
    }

    fn getelementptr(&mut self) -> Parsed<Instr> {
        let op = self.take();
        let flags = self.gepflags()?;
        let elem = self.ty()?;
        let mut operands = vec![self.next_tvalue()?];
        while self.goes_on() { operands.push(self.tvalue()?); }
        Ok(Instr::GetElementPtr { op, flags, elem, operands })
    }

    fn landing_pad(&mut self) -> Parsed<Instr> {
        let op = self.take();
        let ty = self.ty()?;
        let cleanup = self.eat(T::Cleanup);
        let mut clauses = Vec::new();
        while let Some(word) = self.eat(T::ClauseWord) { clauses.push(Clause { word, value: self.tconst()? }); }
        match cleanup {
            Some(cleanup) => Ok(Instr::Cleanup { op, ty, cleanup, clauses }),
            None if clauses.is_empty() => self.fail(),
            None => Ok(Instr::LandingPad { op, ty, clauses }),
        }
    }

    fn arg(&mut self) -> Parsed<Arg> {
        Ok(Arg { ty: self.ty()?, words: self.rattrs()?, value: self.value()? })
    }

    fn callee(&mut self) -> Parsed<Callee> {
        let cc = self.cc()?;
        let result_words = self.rattrs()?;
        let result = self.ty()?;
        let params = if self.eat(T::LeftParen).is_some() { Some(self.ftype()?) } else { None };
        let callee = self.value()?;
        self.expect(T::LeftParen)?;
        let (args, close) = self.list(T::RightParen, Self::arg)?;
        let attributes = self.words()?;
        Ok(Callee { cc, result_words, result, params, callee, args, close, attributes })
    }

    fn call(&mut self) -> Parsed<Instr> {
        let tail = self.eat(T::Tail);
        let op = self.expect(T::Call)?;
        let Callee { cc, result_words, result, params, callee, args, close, attributes } = self.callee()?;
        Ok(Instr::Call(Box::new(Call { tail, op, cc, result_words, result, params, callee, args, close, attributes })))
    }

    fn invoke(&mut self) -> Parsed<Invoke> {
        let op = self.take();
        let Callee { cc, result_words, result, params, callee, args, close, attributes } = self.callee()?;
        self.expect(T::To)?;
        let normal = self.target()?;
        self.expect(T::Unwind)?;
        let unwind = self.target()?;
        Ok(Invoke { op, cc, result_words, result, params, callee, args, close, attributes, normal, unwind })
    }

    // Terminators, blocks and bodies.

    fn target(&mut self) -> Parsed<Leaf> {
        self.expect(T::LabelWord)?;
        self.expect(T::Local)
    }

    fn next_target(&mut self) -> Parsed<Leaf> {
        self.expect(T::Comma)?;
        self.target()
    }

    fn term(&mut self) -> Parsed<Term> {
        let first = self.peek();
        let op = self.take();
        match first {
            Some(T::Ret) if self.eat(T::Void).is_some() => Ok(Term::RetVoid { op }),
            Some(T::Ret) => Ok(Term::Ret { op, of: Box::new(self.tvalue()?) }),
            Some(T::Br) if self.peek() == Some(T::LabelWord) => Ok(Term::Jump { op, to: self.target()? }),
            Some(T::Br) => Ok(Term::Branch { op, on: Box::new(self.tvalue()?), yes: self.next_target()?, no: self.next_target()? }),
            Some(T::Switch) => self.switch(op),
            Some(T::Unreachable) => Ok(Term::Unreachable { op }),
            _ => Ok(Term::Resume { op, of: Box::new(self.tvalue()?) }),
        }
    }

    fn switch(&mut self, op: Leaf) -> Parsed<Term> {
        let on = self.tvalue()?;
        let other = self.next_target()?;
        self.expect(T::LeftBracket)?;
        let mut cases = Vec::new();
        while self.eat(T::RightBracket).is_none() {
            cases.push(Case { ty: self.ty()?, value: self.expect(T::Int)?, to: self.next_target()? });
        }
        Ok(Term::Switch(Box::new(Switch { op, on, other, cases })))
    }

    fn result(&mut self) -> Option<Leaf> {
        if self.peek() != Some(T::Local) || self.second() != Some(T::Equals) { return None; }
        self.at += 2;
        Some((self.at - 2) as Leaf)
    }

    fn inside(&mut self) -> Parsed<(Vec<Line>, Last)> {
        let mut lines = Vec::new();
        loop {
            if let Some(opaque) = self.eat(T::Opaque) {
                lines.push(Line::Opaque(opaque));
                continue;
            }
            let result = self.result();
            match self.peek() {
                Some(T::Invoke) => {
                    let invoke = Box::new(self.invoke()?);
                    let (attached, after) = self.behind()?;
                    return Ok((lines, Last::Invoke { result, invoke, attached, after }));
                }
                Some(T::Ret | T::Br | T::Switch | T::Unreachable | T::Resume) if result.is_none() => {
                    let term = self.term()?;
                    let (attached, after) = self.behind()?;
                    return Ok((lines, Last::Term { term, attached, after }));
                }
                _ => {
                    let instr = Box::new(self.instr()?);
                    let attached = self.attachments()?;
                    lines.push(Line::Instr { result, instr, attached });
                }
            }
        }
    }

    fn behind(&mut self) -> Parsed<(Vec<Attach>, Vec<Leaf>)> {
        Ok((self.attachments()?, self.leaves(|terminal| terminal == T::Opaque)))
    }

    fn body(&mut self) -> Parsed<Body> {
        let label = self.eat(T::Label);
        let (lines, last) = self.inside()?;
        let first = First { label, lines, last };
        let mut blocks = Vec::new();
        while let Some(label) = self.eat(T::Label) {
            let (lines, last) = self.inside()?;
            blocks.push(Block { label, lines, last });
        }
        Ok(Body { first, blocks })
    }

    // Headers, global variables and the other entities.

    fn param(&mut self) -> Parsed<Param> {
        Ok(Param { ty: self.ty()?, words: self.rattrs()?, name: self.eat(T::Local) })
    }

    fn params(&mut self) -> Parsed<Params> {
        match self.peek() {
            Some(T::RightParen) => Ok(Params::Empty),
            Some(T::Dots) => Ok(Params::Dots(self.take())),
            _ => {
                let mut params = vec![self.param()?];
                let mut dots = None;
                while dots.is_none() && self.eat(T::Comma).is_some() {
                    dots = self.eat(T::Dots);
                    if dots.is_none() { params.push(self.param()?); }
                }
                Ok(Params::Listed { params, dots })
            }
        }
    }

    fn header(&mut self) -> Parsed<Header> {
        let linkage = self.eat(T::Linkage);
        let words = self.leaves(|terminal| terminal == T::Hword);
        let cc = self.cc()?;
        let result_words = self.rattrs()?;
        let result = self.ty()?;
        let name = self.expect(T::Global)?;
        self.expect(T::LeftParen)?;
        let params = self.params()?;
        let close = self.expect(T::RightParen)?;
        let unnamed = self.eat(T::Unnamed);
        let attributes = self.words()?;
        let tails = self.ftails()?;
        Ok(Header { linkage, words, cc, result_words, result, name, params, close, unnamed, attributes, tails })
    }

    fn ftails(&mut self) -> Parsed<Vec<Ftail>> {
        let mut found = Vec::new();
        loop {
            found.push(match self.peek() {
                Some(T::Section) => Ftail::Section { word: self.take(), name: self.expect(T::Str)? },
                Some(T::Partition) => Ftail::Partition { word: self.take(), name: self.expect(T::Str)? },
                Some(T::Gc) => Ftail::Gc { word: self.take(), name: self.expect(T::Str)? },
                Some(T::Align) => Ftail::Align { word: self.take(), bytes: self.expect(T::Int)? },
                Some(T::ComdatWord) => Ftail::Comdat(self.comdat()?),
                Some(T::Extra) => Ftail::Extra { word: self.take(), value: self.tconst()? },
                Some(T::Meta) => Ftail::Attach(self.attach()?),
                _ => return Ok(found),
            });
        }
    }

    fn gtail(&mut self) -> Parsed<Gtail> {
        Ok(match self.peek() {
            Some(T::Section) => Gtail::Section { word: self.take(), name: self.expect(T::Str)? },
            Some(T::Partition) => Gtail::Partition { word: self.take(), name: self.expect(T::Str)? },
            Some(T::CodeModel) => Gtail::CodeModel { word: self.take(), name: self.expect(T::Str)? },
            Some(T::Align) => Gtail::Align { word: self.take(), bytes: self.expect(T::Int)? },
            Some(T::ComdatWord) => Gtail::Comdat(self.comdat()?),
            Some(T::Meta) => Gtail::Attach(self.attach()?),
            Some(T::Word | T::Nuw | T::Iflag | T::Gepflag | T::InRange) => Gtail::Word(self.take()),
            _ => return self.fail(),
        })
    }

    fn global_var(&mut self) -> Parsed<GlobalVar> {
        let name = self.take();
        self.expect(T::Equals)?;
        let linkage = self.eat(T::Linkage);
        let words = self.leaves(|terminal| matches!(terminal, T::Hword | T::Unnamed | T::ExternallyInitialized));
        let kind = self.expect(T::Variable)?;
        let ty = self.ty()?;
        let names_next = self.peek() == Some(T::Global) && self.second() == Some(T::Equals);
        let initial = if names_next { None } else { self.constant()? };
        let mut tails = Vec::new();
        while self.eat(T::Comma).is_some() { tails.push(self.gtail()?); }
        let groups = self.leaves(|terminal| terminal == T::Group);
        Ok(GlobalVar { name, linkage, words, kind, ty, initial, tails, groups })
    }

    fn declare(&mut self) -> Parsed<Declare> {
        let word = self.take();
        let mut attached = Vec::new();
        while self.peek() == Some(T::Meta) { attached.push(self.attach()?); }
        Ok(Declare { word, attached, header: self.header()? })
    }

    fn define(&mut self) -> Parsed<Define> {
        let word = self.take();
        let header = self.header()?;
        self.expect(T::LeftBrace)?;
        let body = self.body()?;
        let close = self.expect(T::RightBrace)?;
        Ok(Define { word, header, body, close })
    }

    fn entity(&mut self) -> Parsed<Entity> {
        match self.peek() {
            Some(T::Opaque) => Ok(Entity::Opaque(self.take())),
            Some(T::SourceFilename) => {
                self.take();
                self.expect(T::Equals)?;
                Ok(Entity::SourceFilename { name: self.expect(T::Str)? })
            }
            Some(T::Target) => {
                self.take();
                let which = self.expect(T::TargetPart)?;
                self.expect(T::Equals)?;
                Ok(Entity::Target { which, text: self.expect(T::Str)? })
            }
            Some(T::Local) => {
                let name = self.take();
                self.expect(T::Equals)?;
                self.expect(T::TypeWord)?;
                let body = match self.eat(T::OpaqueWord) {
                    Some(word) => TypeBody::Opaque(word),
                    None => TypeBody::Ty(self.ty()?),
                };
                Ok(Entity::Named { name, body: Box::new(body) })
            }
            Some(T::Attributes) => {
                self.take();
                let group = self.expect(T::Group)?;
                self.expect(T::Equals)?;
                self.expect(T::LeftBrace)?;
                let words = self.gattrs()?;
                self.expect(T::RightBrace)?;
                Ok(Entity::Attributes { group, words })
            }
            Some(T::Global) => Ok(Entity::GlobalVar(Box::new(self.global_var()?))),
            Some(T::Declare) => Ok(Entity::Declare(Box::new(self.declare()?))),
            Some(T::Define) => Ok(Entity::Define(Box::new(self.define()?))),
            _ => self.fail(),
        }
    }
}

fn parse_module(tokens: &[Token], text: &[u8]) -> Parsed<Tree> {
    let terminals: Vec<Terminal> = tokens.iter().map(|token| terminal(text, *token)).collect();
    let mut parser = Parser { terminals: &terminals, at: 0 };
    let mut entities = Vec::new();
    while parser.at < terminals.len() {
        let start = parser.at;
        entities.push(parser.entity().map_err(|_| Refused(tokens[start].from as usize))?);
    }
    Ok(Tree { entities })
}

/// The nanoseconds for which the program has had a processor so far, as Linux counts them.
fn processor_time() -> u64 {
    let text = std::fs::read_to_string("/proc/self/schedstat").expect("the processor's time");
    text.split(' ').next().and_then(|first| first.parse().ok()).expect("a number")
}

fn main() {
    let mut args = std::env::args().skip(1);
    let text = std::fs::read(args.next().expect("a file")).expect("the file's bytes");
    let asked = args.next().expect("what is asked");
    let tokens = tokens(&text).expect("tokens");
    if asked == "read" {
        println!("0 0 {} 0", tokens.len());
        return;
    }
    let before = processor_time();
    let start = Instant::now();
    let tree = parse_module(&tokens, &text);
    let took = start.elapsed().as_nanos();
    let held = processor_time() - before;
    match tree {
        Ok(tree) => println!("{took} {held} {} {}", tokens.len(), tree.entities.len()),
        Err(Refused(at)) => println!("refused at byte {at}"),
    }
}
