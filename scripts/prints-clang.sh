#!/bin/sh
# Prints what clang 22 writes for the C files of examples/c, at four levels: sandvec reads it, LLVM accepts what sandvec prints, and
# printing that again changes nothing. The same for what `opt` writes.
# Skipped, with status 0, where clang-22, opt-22 or the built program is missing.
set -u
top=$(cd "$(dirname "$0")/.." && pwd) || exit 2
program=$top/crates/sandvec/out/sandvec

for tool in clang-22 opt-22; do
    command -v "$tool" >/dev/null 2>&1 || { echo "prints-clang: skipped, no $tool"; exit 0; }
done
[ -x "$program" ] || { echo "prints-clang: skipped, the program is not built"; exit 0; }

work=$(mktemp -d) || exit 2
trap 'rm -rf "$work"' EXIT
failed=0

refuse() {
    echo "prints-clang: $1" >&2
    failed=1
}

for source in "$top"/examples/c/*.c; do
    for level in 0 1 2 3; do
        name="$(basename "$source" .c) at -O$level"
        clang-22 "-O$level" -S -emit-llvm -o "$work/in.ll" "$source" || { refuse "$name: not compiled"; continue; }
        for word in print opt; do
            if ! "$program" "$word" <"$work/in.ll" >"$work/once.ll"; then
                refuse "$word $name: not read"
            elif ! opt-22 -passes=verify -disable-output <"$work/once.ll"; then
                refuse "$word $name: LLVM refuses what is written"
            elif ! "$program" print <"$work/once.ll" | cmp -s - "$work/once.ll"; then
                refuse "$word $name: printing again changes the text"
            else
                echo "prints-clang: $word $name: accepted, and stays as it is"
            fi
        done
    done
done
exit "$failed"
