#!/usr/bin/env python3
"""Writes a text of a module in which every common production of the grammar comes, to the standard output.

usage: make_text.py BYTES

Most of the text is bodies, as in the output of clang: loads, stores, calls with attributes, compares and branches make
up the most of them, and invokes, landing pads and switches come in every few functions. Names need no definition, since
the parser asks for none.
"""
import random
import sys

HEAD = """; ModuleID = 'made.c'
source_filename = "made.c"
target datalayout = "e-m:e-p270:32:32-p271:32:32-p272:64:64-i64:64-i128:128-f80:128-n8:16:32:64-S128"
target triple = "x86_64-pc-linux-gnu"

$kept = comdat any
%struct.node = type { i32, ptr, [16 x i8] }
%struct.tight = type <{ i8, i64, %struct.node }>
%struct.hidden = type opaque

"""
TYPES = ["i1", "i8", "i16", "i32", "i64"]
PREDICATES = ["eq", "ne", "slt", "sle", "ugt", "uge"]


def tail():
    """The declarations, the groups of attributes and the metadata at the text's end."""
    out = ["declare i32 @printf(ptr noundef, ...) #4\n", "declare !dbg !7 void @free(ptr allocptr nocapture noundef) local_unnamed_addr #2\n",
           "declare noalias noundef ptr @malloc(i64 noundef) allockind(\"alloc,uninitialized\") memory(inaccessiblemem: readwrite)\n",
           "declare i32 @__gxx_personality_v0(...)\n", "declare hidden fastcc zeroext i1 @asked(ptr align 8 dereferenceable(16))\n\n"]
    for group in range(5):
        out.append('attributes #%d = { noinline nounwind uwtable "frame-pointer"="all" "target-cpu"="x86-64" memory(argmem: read) }\n' % group)
    out.append('attributes #5 = { alignstack=16 align=8 "no-trapping-math" }\n')
    out.append('\n!llvm.module.flags = !{!0}\n!0 = !{i32 1, !"wchar_size", i32 4}\n')
    return "".join(out)


def globals_of(rng, f):
    """The global variables before a function."""
    out = ['@.str.%d = private unnamed_addr constant [%d x i8] c"value %%d of %%s\\0A\\00", align 1\n' % (f, 16 + f % 9),
           "@counter_%d = internal global i32 %d, align 4\n" % (f, rng.randrange(-9, 999))]
    if f % 4 == 0:
        out.append("@table_%d = dso_local constant [3 x i32] [i32 1, i32 %d, i32 -7], section \".rodata\", align 16, !dbg !%d\n" % (f, f, 10 + f))
        out.append("@node_%d = dso_local global %%struct.node { i32 %d, ptr @counter_%d, [16 x i8] zeroinitializer }, comdat($kept), align 8\n" % (f, f, f))
    if f % 8 == 0:
        out.append("@far_%d = external global ptr\n" % f)
        out.append("@tight_%d = global <{ i8, i64 }> <{ i8 1, i64 ptrtoint (ptr @far_%d to i64) }>, align 1\n" % (f, f))
        out.append("@place_%d = global ptr getelementptr inbounds ([3 x i32], ptr @table_%d, i64 0, i64 %d)\n" % (f, f, f % 3))
        out.append("@apart_%d = global i64 sub (i64 ptrtoint (ptr @place_%d to i64), i64 ptrtoint (ptr @far_%d to i64)), align 8\n" % (f, f, f))
    return "".join(out) + "\n"


def header(rng, f):
    """The first line of a definition."""
    linkage = rng.choice(["dso_local", "internal", "linkonce_odr dso_local", "weak hidden", "internal fastcc"])
    attributes = rng.choice(["noundef", "noundef signext", "range(i32 0, 10)", ""])
    behind = rng.choice(["", " unnamed_addr", " local_unnamed_addr"])
    params = rng.choice(["i32 noundef %0, ptr noundef nonnull align 8 dereferenceable(24) %1", "i32 %0, ptr nocapture noundef readonly %1, ...", "i32 %0, ptr %1"])
    tails = rng.choice(["", " comdat", " section \".text.hot\" align 16", " personality ptr @__gxx_personality_v0"])
    return "define %s %s i32 @work_%d(%s)%s #%d \"kind\"=\"made\"%s !dbg !%d {\n" % (linkage, attributes, f, params, behind, f % 5, tails, 10 + f)


class Body:
    """A function's body, written line by line."""

    def __init__(self, rng, f):
        self.rng, self.f, self.out, self.free = rng, f, [], 3

    def value(self):
        return "%%%d" % self.rng.randrange(0, self.free)

    def add(self, line, *details):
        """A line with a result."""
        self.out.append("  %%%d = " % self.free + line % details + self.end())
        self.free += 1

    def act(self, line, *details):
        self.out.append("  " + line % details + self.end())

    def end(self):
        kind = self.rng.random()
        if kind < 0.4:
            return ", !dbg !%d\n" % self.rng.randrange(10, 90000)
        return ", !tbaa !5, !dbg !%d\n" % self.rng.randrange(10, 90000) if kind < 0.5 else "\n"

    def label(self):
        self.out.append("\n%d:%s; preds = %%0\n" % (self.free, " " * 48))
        self.free += 1

    def allocas(self):
        for _ in range(self.rng.randrange(2, 7)):
            self.add("alloca %s", self.rng.choice(["i32, align 4", "ptr, align 8", "i8, i64 %d, align 16" % self.f, "[4 x i32]"]))
        self.out.append("    #dbg_declare(ptr %%3, !%d, !DIExpression(), !%d)\n" % (20 + self.f, 21 + self.f))

    def memory(self):
        kind = self.rng.random()
        if kind < 0.5:
            self.add("load%s i32, ptr %s, align 4", self.rng.choice(["", "", "", " volatile"]), self.value())
        elif kind < 0.8:
            self.act("store i32 %s, ptr %s, align 4", self.rng.choice([self.value(), "0", "undef"]), self.value())
        elif kind < 0.9:
            self.act("store ptr getelementptr inbounds (i8, ptr @counter_%d, i64 4), ptr %s, align 8", self.f, self.value())
        else:
            self.add("load ptr, ptr @far_%d", self.f)

    def operation(self):
        kind = self.rng.random()
        if kind < 0.35:
            self.add("%s i32 %s, %s", self.rng.choice(["add nsw", "sub", "mul nuw nsw", "and", "or disjoint", "lshr exact"]), self.value(), self.rng.choice([self.value(), "7"]))
        elif kind < 0.55:
            self.add("%s %s", self.rng.choice(["sext", "zext nneg", "zext"]), "i32 %s to i64" % self.value())
        elif kind < 0.8:
            self.add("getelementptr inbounds nuw %%struct.node, ptr %s, i64 %s, i32 %d", self.value(), self.value(), self.rng.randrange(3))
        elif kind < 0.9:
            self.add("select i1 %s, i32 %s, i32 poison", self.value(), self.value())
        else:
            self.add("freeze i32 %s", self.value())

    def call(self):
        kind = self.rng.random()
        if kind < 0.4:
            self.add("call i32 (ptr, ...) @printf(ptr noundef @.str.%d, i32 noundef %s)", self.f, self.value())
        elif kind < 0.7:
            self.add("tail call noundef i32 @work_%d(i32 noundef %s, ptr noundef nonnull align 8 dereferenceable(24) %s) #%d", self.rng.randrange(self.f + 1), self.value(), self.value(), self.f % 5)
        elif kind < 0.85:
            self.act("call void @llvm.lifetime.start.p0(i64 4, ptr nonnull %s)", self.value())
        else:
            self.add("call fastcc zeroext i1 %s(ptr null, i1 true) nounwind \"key\"=\"word\"", self.value())

    def line(self):
        kind = self.rng.random()
        self.memory() if kind < 0.5 else self.operation() if kind < 0.75 else self.call()

    def branch(self):
        kind = self.rng.random()
        if kind < 0.6:
            self.add("icmp %s i32 %s, %s", self.rng.choice(PREDICATES), self.value(), self.rng.choice([self.value(), "10"]))
            self.act("br i1 %%%d, label %%%d, label %%%d", self.free - 1, self.free, self.free + 9)
            self.label()
        elif kind < 0.85:
            self.act("br label %%%d", self.free)
            self.label()
            self.add("phi i32 [ %s, %%0 ], [ 0, %%%d ], [ undef, %%2 ]", self.value(), self.free)
        else:
            cases = "".join("    i32 %d, label %%%d\n" % (case, self.free + case) for case in range(self.rng.randrange(1, 6)))
            self.act("switch i32 %s, label %%%d [\n%s  ]", self.value(), self.free, cases)
            self.label()

    def unwinding(self):
        """An invoke and the block that it unwinds to."""
        self.act("invoke void @thrower(i32 %s)\n          to label %%%d unwind label %%%d", self.value(), self.free, self.free)
        self.label()
        self.add("landingpad { ptr, i32 }\n          %s", self.rng.choice(["cleanup", "catch ptr null", "cleanup catch ptr @far_0 filter [1 x ptr] [ptr null]"]))
        self.act("resume { ptr, i32 } %%%d", self.free - 1)
        self.label()

    def text(self):
        self.allocas()
        for _ in range(self.rng.randrange(3, 12)):
            for _ in range(self.rng.randrange(2, 9)):
                self.line()
            self.branch()
        if self.f % 6 == 0:
            self.unwinding()
        self.act("ret i32 %%%d", self.free - 1)
        return "".join(self.out) + "}\n\n"


def main():
    size = int(sys.argv[1])
    rng = random.Random(1)
    parts, end = [HEAD], tail()
    left, f = size - len(HEAD) - len(end), 0
    while left > 0:
        text = globals_of(rng, f) + header(rng, f) + Body(rng, f).text()
        parts.append(text)
        left -= len(text)
        f += 1
    parts.append(end)
    sys.stdout.write("".join(parts))


main()
