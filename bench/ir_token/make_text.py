#!/usr/bin/env python3
"""Writes a text of a module, shaped like what clang writes for plain C without optimisation.

usage: make_text.py BYTES [PIECE] > FILE        (64 MiB are 67108864)

With a PIECE the text is that piece again and again: `!a `, `$a `, `!0=!{` and `#dbg_x(` are texts in
which a scanner that looks ahead twice would take a time that grows by the square.

The shapes of the lines, and how often each comes, are those of clang's output: stack slots, loads and
stores with `align`, calls, compares, branches with labels behind a `; preds` comment, debug locations,
string constants, groups of attributes, and metadata at the end. Nothing is left out of the profile.
"""
import random
import sys

HEAD = """; ModuleID = 'a.c'
source_filename = "a.c"
target datalayout = "e-m:e-p270:32:32-p271:32:32-p272:64:64-i64:64-i128:128-f80:128-n8:16:32:64-S128"
target triple = "x86_64-pc-linux-gnu"

%struct.node = type { i32, ptr, [16 x i8] }

"""


def body(rng, f):
    """One function's text: its strings, its header and some dozens of instructions."""
    out = []
    out.append('@.str.%d = private unnamed_addr constant [%d x i8] c"value %%d of %%s\\0A\\00", align 1\n' % (f, 16 + f % 9))
    out.append("@counter_%d = internal global i32 0, align 4\n\n" % f)
    out.append("; Function Attrs: noinline nounwind optnone uwtable\n")
    out.append("define dso_local i32 @work_%d(i32 noundef %%0, ptr noundef %%1) #%d !dbg !%d {\n" % (f, f % 4, 10 + f))
    n = 3
    for slot in range(rng.randrange(2, 7)):
        out.append("  %%%d = alloca %s, align %s\n" % (n, *rng.choice([("i32", 4), ("ptr", 8), ("i64", 8)])))
        n += 1
    out.append("  store i32 %0, ptr %3, align 4\n")
    out.append("    #dbg_declare(ptr %%3, !%d, !DIExpression(), !%d)\n" % (20 + f, 21 + f))
    for _ in range(rng.randrange(20, 60)):
        kind = rng.random()
        line = ", !dbg !%d\n" % rng.randrange(10, 90000)
        if kind < 0.3:
            out.append("  %%%d = load i32, ptr %%%d, align 4%s" % (n, rng.randrange(3, n), line))
        elif kind < 0.5:
            out.append("  store i32 %%%d, ptr %%%d, align 4%s" % (rng.randrange(0, n), rng.randrange(3, n), line))
            continue
        elif kind < 0.62:
            out.append("  %%%d = %s nsw i32 %%%d, %d%s" % (n, rng.choice(["add", "sub", "mul"]), rng.randrange(0, n), rng.randrange(-9, 99), line))
        elif kind < 0.72:
            out.append("  %%%d = call i32 (ptr, ...) @printf(ptr noundef @.str.%d, i32 noundef %%%d)%s" % (n, f, rng.randrange(0, n), line))
        elif kind < 0.8:
            out.append("  %%%d = getelementptr inbounds %%struct.node, ptr %%%d, i32 0, i32 %d%s" % (n, rng.randrange(1, n), rng.randrange(3), line))
        elif kind < 0.86:
            out.append("  %%%d = sext i32 %%%d to i64%s" % (n, rng.randrange(0, n), line))
        else:
            out.append("  %%%d = icmp slt i32 %%%d, %%%d%s" % (n, rng.randrange(0, n), rng.randrange(0, n), line))
            out.append("  br i1 %%%d, label %%%d, label %%%d%s\n" % (n, n + 1, n + 1, line))
            out.append("%d:%s; preds = %%%d\n" % (n + 1, " " * 48, 0))
            n += 1
        n += 1
    out.append("  ret i32 %%%d\n}\n\n" % (n - 1))
    return "".join(out)


def main():
    size = int(sys.argv[1])
    if len(sys.argv) > 2:
        piece = sys.argv[2]
        sys.stdout.write(piece * (size // len(piece)))
        return
    rng = random.Random(1)
    tail = ["declare i32 @printf(ptr noundef, ...) #4\n\n"]
    for group in range(5):
        tail.append('attributes #%d = { noinline nounwind optnone uwtable "frame-pointer"="all" "target-cpu"="x86-64" }\n' % group)
    tail.append('\n!llvm.module.flags = !{!0}\n!0 = !{i32 1, !"wchar_size", i32 4}\n')
    tail = "".join(tail)
    parts, left, f = [HEAD], size - len(HEAD) - len(tail), 0
    while True:
        text = body(rng, f)
        if len(text) > left:
            break
        parts.append(text)
        left -= len(text)
        f += 1
    parts.append(";" * (left - 1) + "\n" if left else "")
    parts.append(tail)
    sys.stdout.write("".join(parts))


main()
