#!/bin/sh
# usage: dv.sh CRATE [WIDTH] [FLAG..]
# `rt check` in a crate's folder, cut down: a line for each error, the goals that are open, each function's verdict. What a proof could begin with, and
# which names it can use, `rt check` itself shows.
# WIDTH is how much of a line is shown (200). A FLAG goes to rt, as --only F or --allow-holes.
[ -n "$1" ] || { sed -n '2,5s/^# //p' "$0"; exit 2; }
crate=$1; shift; width=200
case "$1" in ''|*[!0-9]*) ;; *) width=$1; shift ;; esac
cd "crates/$crate" || exit 2
rt check "$@" 2>&1 |
    grep -v -e '^statements ' -e '^library ' -e '^crate ' -e '^logic /' -e '^checked ' -e '^so far: ' -e '^rt: ' -e '^help: ' -e '^  ' \
        -e '^note: [^s]' -e '^note: s[^r]' -e '^[^ ]*: note: ' -e '^enum .*: proved$' -e '^struct .*: proved$' -e 'was not admitted' -e 'is not admitted' |
    cut -c1-"$width"
