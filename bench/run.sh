#!/usr/bin/env bash
# Measures a built program beside plain Rust that does the same, and prints a table with the bars:
# at most 3 times plain Rust's processor time, ten times the rows in at most 12 times the time (random order: 20),
# 4 MiB of one-row INSERTs in less than 20 s, and 28 compressions a count of the generator, in plain Rust, which
# writes the same bytes. Cases that plain Rust does in less than 20 ms are shown and not judged, and so is the growth
# of those that take less than 0.1 s.
#
#     run.sh LEDGERD [ROUNDS [SECONDS [CASE ..]]]      rounds: 3, the most seconds of a run: 120,
#                                                      cases: those whose name has one of these words
cd "$(dirname "${BASH_SOURCE[0]}")" || exit 1
program=$(readlink -f "$OLDPWD/$1" 2>/dev/null); [ -x "$program" ] && [ -f "$program" ] || program=$(readlink -f "$1")
[ -f "$program" ] || { echo "run.sh: no such program: $1" >&2; exit 2; }
rounds=${2:-3} limit=${3:-120}
shift $(($# < 3 ? $# : 3))
[ plain -nt plain.rs ] || rustc --edition 2024 -C opt-level=3 -C target-cpu=x86-64-v2 -o plain plain.rs || exit 1
exec python3 measure.py "$program" "$rounds" "$limit" "$@"
