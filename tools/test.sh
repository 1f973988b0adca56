#!/usr/bin/env bash
# class_input.py on the examples: the inputs' hashes are those that are noted. What sheet_text.py refuses. ./sheet: examples, jars, refusals, exit
# statuses (sheet_test.py), on a fresh copy (build_test.py), on damaged classes (mutation_test.py).
# targets.py and measure_links.py on the examples. crate_uses.py and public.py on a repository of two crates; public.py on the crates.
# That MANUAL, the header and the tools have the definitions' tables; that README names the files to believe, README and
# NOTICE every crate; the page of check times. The gate itself, with scripts in place of what it calls. The tools for proofs, and that each proof is of
# a function of the code.
set -eu
cd "$(dirname "$0")/.."
here=$(mktemp -d)
trap 'rm -rf "$here"' EXIT
failed=0
same() { # what, expected file, given file
    if ! cmp -s "$2" "$3"; then echo "$1: differs from $2"; failed=1; fi
}
refused() { # words that must be said, command ..
    local words=$1; shift
    if "$@" > "$here/out" 2>&1; then echo "accepted: $*"; failed=1; fi
    if ! grep -q -- "$words" "$here/out"; then echo "not said, '$words': $*"; failed=1; fi
}

for line in examples/*.line; do
    name=${line%.line}
    python3 -B tools/class_input.py "$name.class" > "$here/input"
    (cd examples; sha256sum < "$here/input" | sed "s/-/$(basename "$name")/") >> "$here/hashes"
done
same "class_input" examples/inputs.sha256 "$here/hashes"

# a jar: one entry, and all of them
python3 -B - "$here/till.jar" <<'P'
import sys, zipfile
with zipfile.ZipFile(sys.argv[1], 'w') as jar:
    for name in ('Line', 'Sale'):
        jar.write(f'examples/{name}.class', f'till/{name}.class')
    jar.writestr('till/note.txt', 'no class')
P
python3 -B tools/class_input.py examples/Sale.class > "$here/sale"
python3 -B tools/class_input.py "$here/till.jar" till/Sale.class > "$here/entry"
same "an entry of a jar" "$here/sale" "$here/entry"
python3 -B tools/class_input.py --list "$here/till.jar" > "$here/list"
printf 'till/Line.class\ntill/Sale.class\n' > "$here/names"
same "--list" "$here/names" "$here/list"
python3 -B tools/class_input.py --all "$here/till.jar" | tail -c "$(stat -c %s "$here/sale")" > "$here/last"
same "--all" "$here/sale" "$here/last"

# what is refused, and in which words
head -c 400 examples/Sale.class > "$here/cut.class"
refused 'ends in the middle' python3 -B tools/class_input.py "$here/cut.class"
refused 'does not begin as a class file' python3 -B tools/class_input.py examples/Till.kt
refused 'no item named' python3 -B tools/class_input.py "$here/till.jar" till/Nothing.class
say() { echo "$1" | python3 -B tools/sheet_text.py; }
for number in 1 2 3 4 5 6 7 8 9 10 11 12 13 14 17; do refused 'What to do: ' say "$number 0 - -"; done
refused 'the unit: 256' say '6 256 - -'
refused 'ends before what it announces' say input
refused 'the offset among the decoded bytes: 17' say '13 17 - -'
refused 'no refusal 15' say '15 0 - -'
refused 'cut short' say '0 0 0102ffffffff -'
refused 'no count announced' say '0 0 0102ffffffff060000000000000000000000000009000007ffffffff -'
refused '"aliases" was announced' say '0 0 0102ffffffff0600000000000000000000000000 -'
refused '"alias" was announced' say '0 0 0102ffffffff0600000000000000000000000000090100 -'
refused 'was announced' say '0 0 0102ffffffff0600000000000000000001000000 -'

# targets.py and measure_links.py: what declarations link to, and the figures of MANUAL
python3 -B tools/targets_test.py -v 2> "$here/out" || { cat "$here/out"; failed=1; }
sed -n "s/^\(test[a-z_]*\) .*skipped '\(.*\)'$/tools: \1 skipped, \2/p" "$here/out"

# crate_uses.py: a crate above another, named by its code, by a proof, or in comments alone
uses=$here/uses
mkdir -p "$uses/tools" "$uses/crates/low/src" "$uses/crates/high/src" "$uses/crates/high/proofs"
cp tools/crate_uses.py "$uses/tools"
echo 'pub fn f() {}' > "$uses/crates/low/src/lib.rt"
uses_are() { # what, what the line of `high` lists
    python3 -B "$uses/tools/crate_uses.py" | grep '^high:' > "$here/given"
    echo "high:$2" > "$here/expected"
    same "crate_uses, $1" "$here/expected" "$here/given"
}
printf 'low:\nhigh: low io # all of it\n' > "$uses/crates.txt"
printf 'mod os;\nuse low::f;\nfn g() { f(); os::h(); }\n' > "$uses/crates/high/src/lib.rt"
uses_are 'by code' ' low'
refused 'lists io' python3 -B "$uses/tools/crate_uses.py" --check
printf '// low::f\nuse io::write;\n' > "$uses/crates/high/src/lib.rt"
uses_are 'not by comments' ' io'
printf 'use std::{io, os::unix};\nfn g() { io::write(); os::h(); }\n' > "$uses/crates/high/src/lib.rt"
uses_are "not by names of std's modules" ''
printf 'use std::low;\nuse io::write;\nfn g() { low::f(); }\n' > "$uses/crates/high/src/lib.rt"
uses_are 'by one name of two' ' io'
printf '// low::f\nuse io::write;\n' > "$uses/crates/high/src/lib.rt"
echo 'use Rattle.low.specs.F.{f} -- Rattle.check' > "$uses/crates/high/proofs/Lib.antt"
uses_are 'by a proof' ' low io'
python3 -B "$uses/tools/crate_uses.py" --check > "$here/given" || { echo 'crate_uses: refused as it should be'; failed=1; }
echo 'low staticlib:' > "$uses/crates.txt"
echo 'high: # nothing' >> "$uses/crates.txt"
refused 'its text names low' python3 -B "$uses/tools/crate_uses.py" --check
python3 -B "$uses/tools/crate_uses.py" --write
printf 'low staticlib:\nhigh: low io # nothing\n' > "$here/expected"
same 'crate_uses --write' "$here/expected" "$uses/crates.txt"

# public.py: what a crate above names stays public, and what nothing names is told, one wrong thing at a time
public=$here/public
mkdir -p "$public/tools" "$public/docs" "$public/crates/low/src" "$public/crates/high/src" "$public/crates/high/proofs"
cp tools/public.py "$public/tools"
printf 'low:\nhigh: low\n' > "$public/crates.txt"
begin_public() { # both crates as they should be; `named` shows One, which no crate names, and `asked` requires something
    printf '## Public functions\n\n### low\n\n| `named` | - |\n| `deep::asked` | - |\n| `kinds::One::error` | - |\n\n## Other\n\n| `none` | - |\n' > "$public/docs/TRACE.md"
    printf 'pub mod deep;\npub mod kinds;\nuse kinds::One;\npub fn named() -> One {\n    One::Value\n}\n' > "$public/crates/low/src/lib.rt"
    printf '// Callers show that x is small.\npub fn asked(x: u8) -> u8\n    requires { x }\n{\n    x\n}\n' > "$public/crates/low/src/deep.rt"
    printf 'pub enum One {\n    Value,\n}\nimpl One {\n    pub fn error(self) -> u8 {\n        0\n    }\n}\n' > "$public/crates/low/src/kinds.rt"
    printf 'use low::named;\nuse low::deep::asked;\nfn g() -> u8 {\n    let one = named();\n    asked(one.error())\n}\n' > "$public/crates/high/src/lib.rt"
}
public_check() { python3 -B "$public/tools/public.py" --check; }
begin_public
public_check > "$here/given" || { echo 'public.py: refused as it should be'; cat "$here/given"; failed=1; }
sed -i '2d; s/^use low::named;/use low::{\n    deep, named,\n};/; s/ asked(one/ deep::asked(one/' "$public/crates/high/src/lib.rt"
public_check > "$here/given" || { echo 'public.py: a group of names, and a module that it brings in'; cat "$here/given"; failed=1; }
sed -i 's/deep, named/named/' "$public/crates/high/src/lib.rt"
refused 'low::deep::asked (fn): no other crate names it' public_check
begin_public
echo 'pub fn spare() {}' >> "$public/crates/low/src/lib.rt"
refused 'low::spare (fn): no other crate names it; it can be private' public_check
echo '// low::spare' >> "$public/crates/high/src/lib.rt"
refused 'low::spare (fn): no other crate names it' public_check
echo 'use Rattle.low.proofs.spare.Reads as reads' > "$public/crates/high/proofs/Lib.antt"
refused 'low::spare is public, and the table' public_check
sed -i 's/^| `named`.*/&\n| `spare` | - |/' "$public/docs/TRACE.md"
public_check > "$here/given" || { echo 'public.py: a proof names spare'; cat "$here/given"; failed=1; }
rm "$public/crates/high/proofs/Lib.antt"
begin_public
printf '// Kept public: for callers to come.\npub fn spare() {}\n' >> "$public/crates/low/src/lib.rt"
sed -i 's/^| `named`.*/&\n| `spare` | - |/' "$public/docs/TRACE.md"
public_check > "$here/given" || { echo 'public.py: a function that is kept public'; cat "$here/given"; failed=1; }
echo 'use low::spare;' >> "$public/crates/high/src/lib.rt"
refused 'low::spare (fn): another crate names it; its comment need not say "Kept public"' public_check
begin_public
sed -i 's/^pub fn asked/#[inline(always)]\n&/' "$public/crates/low/src/deep.rt"
public_check > "$here/given" || { echo 'public.py: an attribute between a comment and its function'; cat "$here/given"; failed=1; }
sed -i 's/Callers show/Callers know/' "$public/crates/low/src/deep.rt"
refused 'low::deep::asked requires something' public_check
begin_public
sed -i 's/named();/other();/; s/^fn g/fn other() -> Two {\n    Two::Value\n}\n&/' "$public/crates/high/src/lib.rt"
refused 'low::kinds::One::error (fn): no other crate names it' public_check
begin_public
sed -i '/^use low::named/d' "$public/crates/high/src/lib.rt"
refused 'low::kinds::One (enum): no other crate names it' public_check
refused 'low::kinds::One::error (fn): no other crate names it' public_check
begin_public
printf 'fn g() {}\n' > "$public/crates/high/src/lib.rt"
printf 'use deep::asked;\n' >> "$public/crates/low/src/lib.rt"
python3 -B "$public/tools/public.py" --write
grep -h 'fn \|mod \|enum ' "$public/crates/low/src/"*.rt > "$here/given"
printf 'pub(crate) fn asked(x: u8) -> u8\npub(crate) enum One {\n    fn error(self) -> u8 {\nmod deep;\nmod kinds;\nfn named() -> One {\n' > "$here/expected"
same 'public.py --write' "$here/expected" "$here/given"
refused 'low::named is in the table of docs/TRACE.md, and no public function' public_check
python3 -B tools/public.py --check || failed=1

# ./sheet, where its library is there or can be built; the program itself, where it is built
if command -v rt > "$here/out"; then
    for test in sheet_test build_test 'mutation_test 1000'; do
        # shellcheck disable=SC2086
        python3 -B tools/${test/_test/_test.py} > "$here/out" 2>&1 || { cat "$here/out"; failed=1; }
    done
else
    echo 'tools: ./sheet skipped, no rt to build its library'
fi
program=crates/sheet_reader/out/sheet_reader
if [ -x $program ]; then
    for line in examples/*.line; do
        python3 -B tools/class_input.py "${line%.line}.class" | $program > "$here/line"
        same "sheet_reader" "$line" "$here/line"
    done
else
    echo 'tools: sheet_reader itself skipped, it is not built'
fi

# real classes, where a corpus and Debian's Kotlin are there
corpus=${SHEET_CORPUS:-../shared/corpus}/classes.bin
jar=/usr/share/java/kotlin-stdlib.jar
if [ -e "$corpus" ] && [ -e "$jar" ]; then
    python3 tools/reproduce.py "$corpus" "$jar" || { echo 'no input of the corpus is made'; failed=1; }
else
    echo 'tools: real classes skipped, no corpus or no kotlin-stdlib.jar'
fi

# the tables that MANUAL, the header and the tools repeat
bash tools/tables_test.sh || failed=1
# pages that tools make or hold to the crates
bash tools/pages_test.sh || failed=1
# wrong edits and what was said of them
bash tools/edits_test.sh || failed=1
# the gate
bash tools/gate_test.sh || failed=1

# proofs, each of a function
bash tools/proofs/test.sh || failed=1
python3 -B tools/proofs/check.py > "$here/proofs" || { cat "$here/proofs"; failed=1; }

# the maps
for crate in $(sed 's/#.*//; s/[ :].*//' crates.txt); do
    sed '/Apache License/,$d' NOTICE | grep -qw -- "$crate" || { echo "NOTICE doesn't name $crate"; failed=1; }
    grep -q -- "\`$crate\`" README.md || { echo "README's map doesn't name $crate"; failed=1; }
done

# the header's limits, of which the theorems speak
while read -r constant name file; do
    header=$(sed -n "s/^ *$constant = \([0-9]*\),*$/\1/p" include/sheet_reader.h)
    definition=$(sed -n "s/^$name = \([0-9]*\)$/\1/p" "crates/$file")
    [ "${header:-none}" = "$definition" ] || { echo "$constant: ${header:-none} in the header, $name is ${definition:-none}"; failed=1; }
done <<'L'
SHEET_UNIT_LIMIT unit_limit encoding/specs/Encoding.antt
SHEET_STRING_LIMIT string_limit inputs/specs/Inputs.antt
SHEET_TYPE_LIMIT allowance schema/specs/Reading.antt
SHEET_TEXT_LIMIT text_limit passes/specs/Answered.antt
SHEET_LONGEST longest_sheet promises/specs/Promises.antt
L

if [ "$failed" = 0 ]; then echo 'tools: ok'; else exit 1; fi
