#!/bin/sh
# Times the proved scanner and the plain one on one text of 64 MiB, in turns, and prints the best round of each. Works in a
# scratch folder.
# usage: run.sh [BYTES [TURNS]]
#        run.sh long [BYTES]       one round of each on texts of one piece again and again: see make_text.py
set -e
here=$(cd "$(dirname "$0")" && pwd)
scratch=${SCRATCH:-$(mktemp -d)}
mode=turns
if [ "$1" = long ]; then
    mode=long
    shift
fi
size=${1:-67108864}
turns=${2:-8}
mkdir -p "$scratch/crates/token_bench/src"
root=$(cd "$here/../.." && pwd)
for name in attr_ids ir_token; do
    mkdir -p "$scratch/crates/$name"
    for part in src specs proofs; do
        if [ -d "$root/crates/$name/$part" ]; then
            rm -rf "$scratch/crates/$name/$part"
            cp -r "$root/crates/$name/$part" "$scratch/crates/$name/"
        fi
    done
done
printf 'attr_ids:\nir_token: attr_ids thiserror\ntoken_bench: ir_token\n' > "$scratch/crates.txt"
cp "$here/proved.rattle" "$scratch/crates/token_bench/src/main.rt"
python3 "$here/make_text.py" "$size" > "$scratch/crates/token_bench/text.ll"
rustc -O --edition 2024 -o "$scratch/plain" "$here/plain.rs"
cd "$scratch/crates/token_bench"
rt run
if [ "$mode" = long ]; then
    for piece in '!a ' '$a ' '!0=!{' '#dbg_x('; do
        python3 "$here/make_text.py" "$size" "$piece" > text.ll
        echo "$piece"
        ../../plain text.ll 1
        out/token_bench | sed -n 1p
    done
    exit
fi
for turn in $(seq "$turns"); do
    ../../plain text.ll 5
    out/token_bench
done | tee "$scratch/rounds"
for name in plain proved; do
    grep "^$name" "$scratch/rounds" | cut -d' ' -f2 | sort -n | head -1 | sed "s/.*/best round of $name: & ms/"
done
