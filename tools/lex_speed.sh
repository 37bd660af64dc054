#!/usr/bin/env bash
# Builds a program that lexes 4 MiB of source, and times so many runs of the lexer in it (1 where no number is given).
set -eu
root="$(cd "$(dirname "${BASH_SOURCE[0]}")/.." && pwd)"
work="$(mktemp -d)"
trap 'rm -rf "$work"' EXIT
mkdir "$work/crates"
for crate in cif_base grammar cif_lex; do
  cp -r "$root/crates/$crate" "$work/crates/"
done
# The timed program is kept as plain text, since the gate wants every source of Rattle to be in a crate of crates.txt.
mkdir -p "$work"/crates/lex_speed/{src,specs,proofs}
touch "$work"/crates/lex_speed/{specs,proofs}/Lib.antt
cp "$root/tools/lex_speed/main.txt" "$work/crates/lex_speed/src/main.rt"
printf 'cif_base: itoa\ngrammar:\ncif_lex: cif_base grammar\nlex_speed: cif_base cif_lex\n' > "$work/crates.txt"
cd "$work/crates/lex_speed"
rt run > /dev/null
words=()
for ((run = 1; run < ${1:-1}; run++)); do
  words+=(again)
done
time out/lex_speed "${words[@]}"
