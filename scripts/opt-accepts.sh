#!/bin/sh
# Whether LLVM's own reader and verifier accept what sandvec writes for the examples.
# Skipped, with status 0, where opt-22 or the built program is missing.
set -u
top=$(cd "$(dirname "$0")/.." && pwd) || exit 2
program=$top/crates/sandvec/out/sandvec

command -v opt-22 >/dev/null 2>&1 || { echo "opt-accepts: skipped, no opt-22"; exit 0; }
[ -x "$program" ] || { echo "opt-accepts: skipped, the program is not built"; exit 0; }

failed=0
for example in "$top"/examples/*.ll; do
    for word in print opt; do
        if "$program" "$word" <"$example" | opt-22 -passes=verify -disable-output; then
            echo "opt-accepts: $word $(basename "$example"): accepted"
        else
            echo "opt-accepts: $word $(basename "$example"): refused" >&2
            failed=1
        fi
    done
done
exit "$failed"
