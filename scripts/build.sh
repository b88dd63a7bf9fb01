#!/usr/bin/env bash
# Proves and builds one program of crates.txt, with independent crates side by side, and says on standard error how far it is.
#
# usage: scripts/build.sh PROGRAM
#
# A crate begins as soon as all that it stands on is built; so many crates run at once as there are processors. What an earlier run
# kept is taken up. The last thing built is the program, crates/PROGRAM/out/PROGRAM. Where a crate is refused, what rt said of it is
# printed, and the status is 1.
set -u
top=$(cd "$(dirname "$0")/.." && pwd) || exit 1
program=${1:?usage: scripts/build.sh PROGRAM}
room=$(mktemp -d) || exit 1
trap 'rm -rf "$room"' EXIT

declare -A below needed state
while read -r line; do
    line=${line%%#*}
    case $line in *:*) ;; *) continue ;; esac
    names=${line%%:*}
    below[${names%% *}]=${line#*:}
done <"$top/crates.txt"

# Notes a crate of this repository and all that it stands on.
need() {
    local name=$1 lower
    [ -n "${below[$name]+there}" ] && [ -z "${needed[$name]+there}" ] || return 0
    needed[$name]=1
    for lower in ${below[$name]}; do need "$lower"; done
}
need "$program"
[ ${#needed[@]} -gt 0 ] || { echo "build: $program is no crate of crates.txt" >&2; exit 1; }

# Whether all that a crate stands on is built.
is_ready() {
    local lower
    for lower in ${below[$1]}; do
        [ -z "${needed[$lower]+there}" ] || [ "${state[$lower]-}" = built ] || return 1
    done
}

# Builds a crate, and leaves its status in a file.
build() {
    local name=$1 status
    cd "$top/crates/$name" || exit 1
    if [ "$name" = "$program" ]; then
        rt run </dev/null >"$room/$name.log" 2>&1
        [ -x "out/$name" ]
    else
        rt lib >"$room/$name.log" 2>&1
    fi
    status=$?
    echo "$status" >"$room/$name.part"
    mv "$room/$name.part" "$room/$name.status"
}

all=${#needed[@]} built=0 running=0 most=$(nproc 2>/dev/null || echo 2)
SECONDS=0
while [ "$built" -lt "$all" ]; do
    for name in "${!needed[@]}"; do
        if [ "$running" -lt "$most" ] && [ -z "${state[$name]-}" ] && is_ready "$name"; then
            state[$name]=begun
            running=$((running + 1))
            build "$name" &
        fi
    done
    wait -n
    for name in "${!needed[@]}"; do
        [ "${state[$name]-}" = begun ] && [ -f "$room/$name.status" ] || continue
        running=$((running - 1))
        if [ "$(cat "$room/$name.status")" != 0 ]; then
            cat "$room/$name.log" >&2
            echo "build: $name was not proved or not built" >&2
            wait
            exit 1
        fi
        state[$name]=built
        built=$((built + 1))
        echo "build: $name, $built of $all, $((SECONDS / 60)) min $((SECONDS % 60)) s" >&2
    done
done
