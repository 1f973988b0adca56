#!/usr/bin/env bash
# .ci/run with scripts in place of rt, of the tools and of the tests: it calls a plain `rt ci`, ends with its count where all is well, and fails, without
# that line at its end, where any part fails or an edit is bad.
set -eu
cd "$(dirname "$0")/.."
here=$(mktemp -d)
trap 'rm -rf "$here"' EXIT
failed=0
mkdir -p "$here/.ci" "$here/bin" "$here/tools" "$here/host"
cp .ci/run "$here/.ci/run"
begin() { # all is well
    printf '#!/bin/sh\necho "$@" >> "%s/asked"\ncat "%s/said"\nexit $(cat "%s/status")\n' "$here" "$here" "$here" > "$here/bin/rt"
    printf '== low\nfn low::f: proved\nrt: low proved\nrt: high is kept: an earlier run proved it\nrt: must-fail low/a.edit: refused, as it must be\n' > "$here/said"
    printf 'rt: ok; handles allowed: none; must-fail edits: 5 refused; every proof was done in this run\n7 passed, 0 failed\n' >> "$here/said"
    echo 0 > "$here/status"
    for tool in crate_uses edits wrong_bodies proving; do echo "import sys; print('$tool', *sys.argv[1:])" > "$here/tools/$tool.py"; done
    for test in tools/test.sh host/test host/run; do printf '#!/bin/sh\necho %s "$@"\n' "$test" > "$here/$test"; done
    chmod +x "$here/bin/rt" "$here/host/test" "$here/host/run"
    rm -f "$here/asked"
}
gate() { PATH=$here/bin:$PATH bash "$here/.ci/run" > "$here/out" 2>&1; }
fails() { # what
    local status=0
    gate || status=$?
    if [ "$status" = 0 ]; then echo "gate: passes, $1"; failed=1; fi
    if tail -n 1 "$here/out" | grep -q '^[1-9][0-9]* passed, 0 failed$'; then echo "gate: ends with a count, $1"; failed=1; fi
}
begin
gate || { echo 'gate: fails where all is well'; cat "$here/out"; failed=1; }
[ "$(tail -n 1 "$here/out")" = '7 passed, 0 failed' ] && [ "$(grep -c passed "$here/out")" = 1 ] || { echo 'gate: its last line'; cat "$here/out"; failed=1; }
[ "$(cat "$here/asked")" = ci ] || { echo 'gate: not a plain rt ci'; failed=1; }
for line in 'crate_uses --check' 'edits --check' 'edits --refused /' 'wrong_bodies /' 'proving /' 'tools/test.sh' 'host/test' 'host/run 1' 'rt: low proved (after [0-9]* s)' 'rt: high is kept: .*(after [0-9]* s)'; do
    grep -q "^$line" "$here/out" || { echo "gate: no line $line"; failed=1; }
done
sed -i 's/5 refused;/5 refused, 1 bad;/' "$here/said"
fails 'a bad edit'
sed -i 's/5 refused, 1 bad;/5 refused, 2 of them only by a limit, 12 bad;/' "$here/said"
fails 'bad edits beside those at a limit'
begin
sed -i '/^rt: ok/d' "$here/said"
fails 'no line ok'
begin
sed -i 's/^7 passed, 0 failed/6 passed, 1 failed/' "$here/said"
fails 'a count with a failure'
echo 1 > "$here/status"
fails 'rt ci failed'
echo 2 > "$here/status"
echo '0 passed, 1 failed' > "$here/said"
fails 'rt ci stopped'
for tool in crate_uses edits wrong_bodies proving; do
    begin
    echo 'raise SystemExit(1)' > "$here/tools/$tool.py"
    fails "$tool.py"
done
begin
echo 'import sys; raise SystemExit(sys.argv[1] == "--refused")' > "$here/tools/edits.py"
fails 'an edit that is refused for another reason'
for test in tools/test.sh host/test host/run; do
    begin
    printf '#!/bin/sh\nexit 1\n' > "$here/$test"
    fails "$test"
done
if [ "$failed" = 0 ]; then echo 'gate: ok'; else exit 1; fi
