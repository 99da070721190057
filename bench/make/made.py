#!/usr/bin/env python3
"""Writes what the program `make_rows` is to print for its input: the made modules by a plain script.

usage: made.py < crates/make_rows/stdin > crates/make_rows/stdout"""
import sys

MOST = 4000


def work(i):
    if i == 0:
        return ["  store i32 0, ptr %p, align 4"]
    if i % 3 == 0:
        return [f"  call void @f{i - 1}(ptr %p)"]
    if i % 3 == 1:
        return ["  %v = load i32, ptr %p, align 4", f"  call void @f{i // 2}(ptr %p)"]
    return ["  %a = alloca i64, align 8", f"  call void @f{i - 1}(ptr %a)"]


def module(count):
    lines = ["@g = global i32 0, align 4"]
    for i in range(count):
        lines += [f"define internal void @f{i}(ptr %p) {{", *work(i), "  ret void", "}"]
    lines += ["define void @main() {"]
    lines += [f"  call void @f{i}(ptr @g)" for i in range(count)]
    lines += ["  ret void", "}"]
    return "".join(line + "\n" for line in lines)


def summed(text):
    total = 0
    for byte in text.encode():
        total = (total * 31 + byte) % 2**64
    return total


for row in sys.stdin:
    command, count = row.split()
    count = int(count)
    if not 1 <= count <= MOST:
        print("no module")
    elif command == "whole":
        print(module(count))
    else:
        text = module(count)
        print(len(text), summed(text))
