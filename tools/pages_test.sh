#!/usr/bin/env bash
# The pages that tools make or hold to the crates. check_times.py: a small log, one of a gate that didn't pass, one without crates. trusted.py:
# README as it is, and copies of the repository in which a definition rests on one file more, and in which README has one file fewer.
# The lines of ./sheet that README shows. trace_files.py: TRACE as it is, with a name that is nowhere, with the file of another crate that defines the name, and with a file renamed.
# wrong_answers.py --list: the table as it is, with other words than TRACE's, with a public function's second line gone, and with a line that does not fit.
set -eu
cd "$(dirname "$0")/.."
here=$(mktemp -d)
trap 'rm -rf "$here"' EXIT
failed=0
cat > "$here/log" <<'L'
.ci/run: 4 processors
fn low::f: proved
rt: low proved (after 3 s)
rt: high: its tests are proved (after 50 s)
rt: high proved (after 61 s)
rt: low: trying its must-fail edits (1)
rt: must-fail high/blank.edit: refused, as it must be: ./proofs/f/Answers.antt:1:2: error: `returns`: the sides differ
rt: must-fail high/wrong.edit: refused, as it must be
.ci/run: crates and edits took 100 s
low: 3 wrong bodies in 1 check, 0 not refused as they must be
.ci/run: the static library took 20 s
4 passed, 0 failed
L
cat > "$here/expected" <<'T'
| part of the gate | time |
|---|---|
| crates and edits | 1 min 40 s |
| the static library | 20 s |
| all | 2 min 0 s |

| crate | proved after, s | wrong edits |
|---|---|---|
| `low` | 3 | 3 |
| `high` | 61 | 2 |
| 2 crates | 61 | 5 |
T
python3 -B tools/check_times.py "$here/log" > "$here/page"
sed -n '/^| part/,$p' "$here/page" | cmp - "$here/expected" || failed=1
grep -q '(4 processors)' "$here/page" || { echo 'check_times: the machine is not told'; failed=1; }
sed 's/^rt: low proved/rt: low is kept: an earlier run on this machine proved the same files over the same libraries/' "$here/log" > "$here/again"
python3 -B tools/check_times.py "$here/again" > "$here/out"
grep -q '^1 of the crates were kept' "$here/out" && grep -qx '| `low` | kept | 3 |' "$here/out" || { echo 'check_times: what was kept'; failed=1; }
refused() { # words, log
    if python3 -B tools/check_times.py "$2" > "$here/out" 2>&1 || ! grep -q "$1" "$here/out"; then echo "check_times: not refused, '$1'"; failed=1; fi
}
head -n -1 "$here/log" > "$here/ended"
refused 'did not pass' "$here/ended"
python3 -B tools/check_times.py --unfinished "$here/ended" > "$here/out"
grep -q '^This gate was ended' "$here/out" || { echo 'check_times: --unfinished'; failed=1; }
echo '4 passed, 0 failed' > "$here/none"
refused 'no crate' "$here/none"
refused 'No such file' "$here/nothing"

python3 -B tools/trusted.py --check || failed=1
copied() {
    rm -rf "$here/copy"
    mkdir "$here/copy"
    cp -r --parents README.md crates/*/specs crates/sheet_calls/src tools/trusted.py "$here/copy"
}
believes() { # words that must be said
    if python3 -B "$here/copy/tools/trusted.py" --check > "$here/out" 2>&1 || ! grep -q "$1" "$here/out"; then
        echo "trusted: not found, '$1'"
        failed=1
    fi
    copied
}
copied
sed -i 's/`wire`: `Wire`, `Messages`/`wire`: `Wire`/' "$here/copy/README.md"
if python3 -B "$here/copy/tools/trusted.py" --check > "$here/out" 2>&1; then echo 'trusted: not found, README has a file fewer'; failed=1; fi
python3 -B "$here/copy/tools/trusted.py" --write
cmp README.md "$here/copy/README.md" || failed=1
echo 'use Rattle.lookup.specs.told.Strings.{codes_in}' >> "$here/copy/crates/metadata/specs/Read.antt"
believes 'lookup/specs/told/Strings.antt: crates/metadata/specs/Read.antt rests on it'
mv "$here/copy/crates/wire/specs/told/WireTold.antt" "$here/copy/crates/wire/specs/WireTold.antt"
believes 'wire/specs/WireTold.antt: nothing to be believed rests on it'
echo 'use Rattle.promises.specs.Walk.{ref_text}' >> "$here/copy/crates/wire/specs/Wire.antt"
believes 'wire/specs/Wire.antt: it is read before crates/promises/specs/Walk.antt'
echo 'use Rattle.wire.specs.More.{more}' >> "$here/copy/crates/wire/specs/Messages.antt"
echo '-- more' > "$here/copy/crates/wire/specs/More.antt"
believes 'wire/specs/More.antt: it has no place in ORDER'
printf 'abbrev pub body_in : ℕ\nbody_in = 0\n' >> "$here/copy/crates/wire/specs/told/WireTold.antt"
believes 'body_in is defined in crates/schema/specs/Members.antt and in crates/wire/specs/told/WireTold.antt'

# the lines that README shows of ./sheet are those that it prints
grep '^    public ' README.md | sed 's/^    //' > "$here/shown"
[ -s "$here/shown" ] || { echo 'README shows no line of ./sheet'; failed=1; }
cat examples/*.txt | sed 's/^ *//' > "$here/printed"
while IFS= read -r line; do
    grep -qxF -- "$line" "$here/printed" || { echo "README shows a line that ./sheet does not print: $line"; failed=1; }
done < "$here/shown"

python3 -B tools/trace_files.py --check || failed=1
mkdir -p "$here/traced/docs" "$here/traced/tools"
cp -r crates "$here/traced"
cp docs/TRACE.md "$here/traced/docs"
cp tools/trace_files.py "$here/traced/tools"
traced() { # words that must be said
    if python3 -B "$here/traced/tools/trace_files.py" --check > "$here/out" 2>&1 || ! grep -q "$1" "$here/out"; then
        echo "trace_files: not found, '$1'"
        failed=1
    fi
}
sed -i 's/`first_above255`/`first_above256`/' "$here/traced/docs/TRACE.md"
traced 'first_above256 is defined nowhere'
cp docs/TRACE.md "$here/traced/docs"
sed -i 's|fields/specs/Fields.antt, schema/proofs|wire/src/lib.rt, schema/proofs|' "$here/traced/docs/TRACE.md"
traced 'there should be .*fields/specs/Fields.antt, schema'
cp docs/TRACE.md "$here/traced/docs"
mv "$here/traced/crates/encoding/specs/Encoding.antt" "$here/traced/crates/encoding/specs/Units.antt"
traced 'there should be .*encoding/specs/Units.antt'

python3 -B tools/wrong_answers.py --list > "$here/out" || { cat "$here/out"; failed=1; }
mkdir "$here/listed"
cp -r --parents docs/TRACE.md crates/*/src tools/wrong_answers.py tools/wrong_answers.tsv tools/proofs "$here/listed"
listed() { # what is done to the table, words that must be said
    sed -i "$1" "$here/listed/tools/wrong_answers.tsv"
    if python3 -B "$here/listed/tools/wrong_answers.py" --list > "$here/out" 2>&1 || ! grep -q "$2" "$here/out"; then
        echo "wrong_answers --list: not found, '$2'"
        failed=1
    fi
    cp tools/wrong_answers.tsv "$here/listed/tools"
}
listed 's/\thalf of the area only$/\thalf/' 'foundation put: half of the area only: docs/TRACE.md names it, and no line has it'
listed '/\twide\t.*\thalf of it$/d' 'foundation wide: it is public, and has fewer than two lines'
listed 's/\tn as usize\t/\tn as u8\t/' 'foundation wide: half of it: its old text stands 0 times in the function'
if [ "$failed" = 0 ]; then echo 'pages: ok'; else exit 1; fi
