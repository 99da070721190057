#!/usr/bin/env python3
"""Holds the rows of crates/grammar_rows against the grammar, without the parsers.

For each row `end` and `drop` of crates/grammar_rows/stdin it finds every place at which a tree of the production may end,
by trying all alternatives, takes the last of them, and compares it with the line of crates/grammar_rows/stdout. It knows
nothing of the parsers: it reads the grammar below. Rows `show` and `words` are written by hand, and are not compared.

    python3 bench/grammar_rows/ends_by_grammar.py
"""
import os
import re
import sys

sys.setrecursionlimit(100000)

# x* any number, x+ one or more, [x] one or none, x,* a list with commas. NOT_VOID: the next token is not `void`.
# NOT_A_NAME: no Global with `=` behind it. CC_WORD: a word of three bytes or more that ends in cc.
GRAMMAR = r"""
module  = entity*
entity  = Opaque
        | 'source_filename' '=' Str
        | 'target' ('datalayout' | 'triple') '=' Str
        | Local '=' 'type' (type | 'opaque')
        | 'attributes' Group '=' '{' gattr* '}'
        | Global '=' [linkage] gword* ('global' | 'constant') type [NOT_A_NAME const] (',' gtail)* Group*
        | 'declare' attach* header
        | 'define' header '{' first block* '}'
header  = [linkage] hword* [cc] rattr* type Global '(' params ')'
          [unnamed] (fattr | Group)* ftail*
linkage = 'private' | 'internal' | 'available_externally' | 'linkonce' | 'weak'
        | 'common' | 'appending' | 'extern_weak' | 'linkonce_odr' | 'weak_odr'
        | 'external'
hword   = 'dso_local' | 'dso_preemptable' | 'default' | 'hidden' | 'protected'
        | 'dllimport' | 'dllexport'
unnamed = 'unnamed_addr' | 'local_unnamed_addr'
gword   = hword | unnamed | 'externally_initialized'
gtail   = 'section' Str | 'partition' Str | 'code_model' Str | 'align' Int
        | comdat | attach | aword
ftail   = 'section' Str | 'partition' Str | 'gc' Str | 'align' Int | comdat
        | ('prefix' | 'prologue' | 'personality') tconst | attach
comdat  = 'comdat' ['(' Comdat ')']
attach  = Meta Meta
cc      = 'cc' Int | CC_WORD
rattr   = 'align' Int | 'align' '(' Int ')' | fattr
fattr   = aword ['(' inner* ')'] | Str ['=' Str]
gattr   = aword '=' Int | 'align' '=' Int | fattr
inner   = NO_PARENTHESIS | '(' inner* ')'
params  = [ '...' | param (',' param)* [',' '...'] ]
param   = type rattr* [Local]
type    = 'void' | iN | 'ptr' | '[' Int 'x' type ']' | '{' type,* '}'
        | '<' '{' type,* '}' '>' | Local
ftype   = '(' [ '...' | type (',' type)* [',' '...'] ] ')'
const   = Int | 'true' | 'false' | 'null' | 'undef' | 'poison'
        | 'zeroinitializer' | Global | CStr | '[' tconst,* ']'
        | '{' tconst,* '}' | '<' '{' tconst,* '}' '>'
        | 'getelementptr' gepflag* '(' type (',' tconst)+ ')'
        | ('ptrtoint' | 'trunc') '(' tconst 'to' type ')'
        | ('add' | 'sub' | 'xor') iflag* '(' tconst ',' tconst ')'
tconst  = type const
value   = Local | const
tvalue  = type value
first   = [Label] line* last
block   = Label line* last
line    = Opaque | [Local '='] instr (',' attach)*
last    = (term | [Local '='] invoke) (',' attach)* Opaque*
instr   = binop iflag* type value ',' value
        | 'icmp' iflag* pred type value ',' value
        | castop iflag* tvalue 'to' type
        | 'select' tvalue ',' tvalue ',' tvalue
        | 'freeze' tvalue
        | 'phi' type arm (',' arm)*
        | 'alloca' type [',' tvalue] [',' 'align' Int]
        | 'load' ['volatile'] type ',' tvalue [',' 'align' Int]
        | 'store' ['volatile'] tvalue ',' tvalue [',' 'align' Int]
        | 'getelementptr' gepflag* type ',' tvalue (',' tvalue)*
        | ['tail' | 'notail'] 'call' [cc] rattr* type [ftype] value
          '(' arg,* ')' (fattr | Group)*
        | 'landingpad' type ('cleanup' clause* | clause+)
arm     = '[' value ',' Local ']'
arg     = type rattr* value
clause  = ('catch' | 'filter') tconst
invoke  = 'invoke' [cc] rattr* type [ftype] value '(' arg,* ')'
          (fattr | Group)* 'to' 'label' Local 'unwind' 'label' Local
term    = 'ret' 'void' | 'ret' NOT_VOID tvalue | 'br' 'label' Local
        | 'br' tvalue ',' 'label' Local ',' 'label' Local
        | 'switch' tvalue ',' 'label' Local '[' case* ']' | 'unreachable'
        | 'resume' tvalue
case    = type Int ',' 'label' Local
iflag   = 'nsw' | 'nuw' | 'exact' | 'disjoint' | 'nneg' | 'samesign'
gepflag = 'inbounds' | 'nusw' | 'nuw' | 'inrange' '(' Int ',' Int ')'
body    = first block*
attachments = (',' attach)*
"""

BINOP = "add sub mul udiv sdiv urem srem shl lshr ashr and or xor".split()
PRED = "eq ne ugt uge ult ule sgt sge slt sle".split()
CASTOP = "trunc zext sext ptrtoint".split()
# The rows' names of productions that are a list, a part that may be missing, or one of two leaves.
OTHERS = {
    "rattr*": "rattr*", "gattr*": "gattr*", "word*": "(fattr | Group)*", "iflag*": "iflag*", "gepflag*": "gepflag*",
    "[word]": "[aword]", "[group]": "[Group]", "int|group": "Int | Group", "int|str": "Int | Str", "group*": "Group*",
}
KINDS = [
    ("Label", r'[A-Za-z0-9$._-]+:|"[^"]*":'),
    ("Global", r'@(?:\d+|[A-Za-z$._-][A-Za-z0-9$._-]*|"[^"]*")'),
    ("Local", r'%(?:\d+|[A-Za-z$._-][A-Za-z0-9$._-]*|"[^"]*")'),
    ("Comdat", r'\$(?:\d+|[A-Za-z$._-][A-Za-z0-9$._-]*|"[^"]*")'),
    ("Str", r'"[^"]*"'),
    ("CStr", r'c"[^"]*"'),
    ("Group", r"#\d+"),
    ("Meta", r"!(?:\d+|[A-Za-z$._\\-][A-Za-z0-9$._\\-]*)"),
    ("Int", r"-?\d+"),
    ("Word", r"[A-Za-z_][A-Za-z0-9_.]*"),
    ("Dots", r"\.\.\."),
    ("Punct", r"[()\[\]{}<>,=]"),
]
# What is not read: a node of metadata, and a debug record.
OPAQUE = [
    re.compile(r"![\w$.\\-]+\s*=\s*(?:distinct\s*)?![A-Za-z0-9$._\\-]*"),
    re.compile(r"#dbg_\w*"),
]


def rules_of(text):
    """The right side of each production, by its name."""
    found, name = {}, None
    for line in text.split("\n"):
        start = re.match(r"^(\w+)\s*=\s*(.*)$", line)
        if start:
            name = start.group(1)
            found[name] = start.group(2)
        elif line.strip():
            found[name] += " " + line.strip()
    return found


def parse(side):
    """A right side as a tree of tuples."""
    words = re.findall(r"'[^']*'|\w+|,\*|[][()|*+]", side)
    at = 0

    def choice():
        nonlocal at
        found = [sequence()]
        while at < len(words) and words[at] == "|":
            at += 1
            found.append(sequence())
        return ("choice", found)

    def sequence():
        nonlocal at
        found = []
        while at < len(words) and words[at] not in (")", "]", "|"):
            part = atom()
            while at < len(words) and words[at] in ("*", "+", ",*"):
                part = ({"*": "many", "+": "some", ",*": "separated"}[words[at]], part)
                at += 1
            found.append(part)
        return ("sequence", found)

    def atom():
        nonlocal at
        word = words[at]
        at += 1
        if word in "([":
            inner = choice()
            at += 1
            return inner if word == "(" else ("optional", inner)
        return ("quoted", word[1:-1]) if word[0] == "'" else ("name", word)

    return choice()


RULES = rules_of(GRAMMAR)
FLAGS = set(re.findall(r"'(\w+)'", RULES["iflag"] + RULES["gepflag"]))
QUOTED = {word for side in RULES.values() for word in re.findall(r"'([A-Za-z_]\w*)'", side)}
RESERVED = (QUOTED - FLAGS) | set(BINOP) | set(PRED) | set(CASTOP)
TREES = {name: parse(side) for name, side in {**RULES, **OTHERS}.items()}


def closed(text, at):
    """The place behind a bracket and all that it holds, or None."""
    depth = 0
    while at < len(text):
        if text[at] == '"':
            at = text.index('"', at + 1)
        depth += (text[at] in "([{<") - (text[at] in ")]}>")
        at += 1
        if depth == 0:
            return at
    return None


def opaque(text, at):
    for form in OPAQUE:
        start = form.match(text, at)
        if start and text[start.end() : start.end() + 1] in ("(", "{"):
            return closed(text, start.end())
    return None


def tokens(text):
    """Kind, text, first byte and end of each token, or None."""
    at, found = 0, []
    while at < len(text):
        if text[at] in " \t\r\n":
            at += 1
        elif text[at] == ";":
            at = re.compile(r"[^\r\n]*").match(text, at).end()
        else:
            end = opaque(text, at)
            best = ("Opaque", end) if end else None
            for kind, form in KINDS if best is None else []:
                match = re.compile(form).match(text, at)
                if match and (best is None or match.end() > best[1]):
                    best = (kind, match.end())
            if best is None:
                return None
            found.append((best[0], text[at : best[1]], at, best[1]))
            at = best[1]
    return found


class Ends:
    """Every place at which a tree of a production may end."""

    def __init__(self, toks):
        self.toks, self.known = toks, {}

    def one(self, at, fits):
        return {at + 1} if at < len(self.toks) and fits else set()

    def leaf(self, name, at):
        kind, word = self.toks[at][:2] if at < len(self.toks) else ("", "")
        following = self.toks[at + 1][1] if at + 1 < len(self.toks) else ""
        is_int, is_cc = re.fullmatch(r"i\d+", word) is not None, len(word) >= 3 and word.endswith("cc")
        if name == "NOT_VOID":
            return set() if word == "void" else {at}
        if name == "NOT_A_NAME":
            return set() if kind == "Global" and following == "=" else {at}
        fits = {
            "iN": is_int,
            "CC_WORD": is_cc and not is_int,
            "aword": not is_int and not is_cc and word not in RESERVED,
            "binop": word in BINOP,
            "castop": word in CASTOP,
            "pred": word in PRED,
        }
        if name in fits:
            return self.one(at, kind == "Word" and fits[name])
        if name == "NO_PARENTHESIS":
            return self.one(at, word not in ("(", ")"))
        return self.one(at, kind == name)

    def of(self, name, at):
        if name not in TREES:
            return self.leaf(name, at)
        if (name, at) not in self.known:
            self.known[name, at] = self.ends(TREES[name], at)
        return self.known[name, at]

    def ends(self, part, at):
        form, inner = part
        if form == "quoted":
            here = self.toks[at][:2] if at < len(self.toks) else ("", "")
            return self.one(at, here[1] == inner and here[0] in ("Word", "Punct", "Dots"))
        if form == "name":
            return self.of(inner, at)
        if form == "choice":
            return set().union(*[self.ends(one, at) for one in inner])
        if form == "optional":
            return {at} | self.ends(inner, at)
        if form == "sequence":
            places = {at}
            for one in inner:
                places = set().union(*[self.ends(one, place) for place in places])
            return places
        if form == "separated":
            return {at} | self.ends(("sequence", [inner, ("many", ("sequence", [("quoted", ","), inner]))]), at)
        places, left = set(), [at]
        while left:
            for end in self.ends(inner, left.pop()) - places:
                places.add(end)
                left.append(end)
        return places | {at} if form == "many" else places

    def last(self, name, at):
        return max(self.of(name, at), default=None)


def read(production, at, text):
    """The line for a production and a text, and its short form."""
    toks = tokens(text)
    if toks is None:
        return "no tokens", "-"
    ends = Ends(toks)

    def byte(place):
        return toks[place][2] if place < len(toks) else len(text)

    if production == "module":
        place, count = 0, 0
        while (end := ends.last("entity", place)) is not None:
            place, count = end, count + 1
        return (f"refused at byte {byte(place)}", "-") if place < len(toks) else (f"{count} entities", str(count))
    end = ends.last(production, at)
    if end is None:
        return (f"refused at byte {byte(at)}" if production == "body" else "none"), "-"
    return f"token {end}, byte {byte(end)}", str(end)


def unescaped(written):
    text = ""
    while written:
        found = re.match(r"\\\((\d+):(.*?)\\\)", written)
        if found:
            text += found.group(2) * int(found.group(1))
            written = written[found.end() :]
        elif written[0] == "\\":
            text += {"n": "\n", "\\": "\\"}[written[1]]
            written = written[2:]
        else:
            text += written[0]
            written = written[1:]
    return text


def line_for(row):
    """The line that a row must print, or None where it is written by hand."""
    if not row or row[0] == ";":
        return row
    mode, production, written = row.split(" ", 2)
    production, _, at = production.partition("@")
    text = unescaped(written)
    if mode == "end":
        return read(production, int(at or 0), text)[0]
    if mode == "drop":
        gaps = [text[:first] + " " * (end - first) + text[end:] for _, _, first, end in tokens(text)]
        return " ".join(read(production, int(at or 0), gap)[1] for gap in gaps)
    return None


def main():
    folder = os.path.join(os.path.dirname(os.path.abspath(__file__)), "..", "..", "crates", "grammar_rows")
    rows, lines = [open(os.path.join(folder, name)).read().split("\n") for name in ("stdin", "stdout")]
    wrong = [(row, line) for row, line in zip(rows, lines) if line_for(row) not in (None, line)]
    for row, line in wrong:
        print(f"{row}\n  has      {line}\n  by rules {line_for(row)}")
    print(f"{len(rows)} rows, {len(wrong)} differ")
    sys.exit(bool(wrong) or len(rows) != len(lines))


main()
