#!/usr/bin/env bash
# tables.py on the repository, where nothing differs, and on copies in which one place was changed: each change is found and named.
set -eu
cd "$(dirname "$0")/.."
here=$(mktemp -d)
trap 'rm -rf "$here"' EXIT
failed=0
changes=0

mkdir "$here/copy"
cp -r --parents crates/*/specs docs include tools/*.py host/java/sheetreader "$here/copy"
changed() { # file, the sed that changes it, words that must be said
    sed "$2" "$1" > "$here/copy/$1"
    changes=$((changes + 1))
    if cmp -s "$1" "$here/copy/$1"; then echo "tables: nothing changed in $1 by $2"; failed=1; fi
    if python3 -B tools/tables.py "$here/copy" > "$here/said" 2>&1; then echo "tables: not found in $1: $2"; failed=1; fi
    grep -q -- "$3" "$here/said" || { echo "tables: not said of $1, '$3':"; cat "$here/said"; failed=1; }
    cp "$1" "$here/copy/$1"
}

python3 -B tools/tables.py > "$here/said" 2>&1 || { cat "$here/said"; failed=1; }

manual=docs/MANUAL.md header=include/sheet_reader.h tool=$(grep -l '^RECORDS = {' tools/*.py) java=host/java/sheetreader
changed $manual '/^| 3 | function/s/5 flags, 8/5 flags, 4/' 'MANUAL.md: record 3: at 5 flags, 4 bytes; the definitions have at 5 flags, 8'
changed $manual '/^| 3 | function/s/| 24 |/| 25 |/' 'bytes of record 3: 25'
changed $manual '/^| 4 | property/{s/getter is default/x/;s/setter is default/getter is default/;s/x/setter is default/}' 'at 14 setter is default'
changed $manual '/^| 6 | type | 10/d' 'kinds of records'
changed $manual '/^| 6 | type | 10/s/ · 9 projection, 1//' 'number of cells of record 6: 4'
changed $manual '/^| 8 | alias | 13/s/5 flags, 8/5 flags, 4/' 'record 8: at 5 flags, 4 bytes'
changed $manual '/^| 9 | aliases | 3/s/count of aliases/count of types/' 'record 9: at 1 count of types, 2 bytes; the definitions have at 1 aliases'
changed $manual '/^| 7 | the expanded/d' 'numbers of role'
changed $manual '/^| 9 | a varint/s/| 9 |/| 15 |/' 'numbers of refusal'
changed $manual '/^| 13 | a length/s/past its message/too far/' 'refusal 13 is told as'
changed $manual '/^| 14 | /s/detail:/and/' 'refusals with a detail'
changed $manual '/^| 4 | the major/s/the major version is above 2/d1 is empty/' 'refusal 4 is told as'
changed $manual '/^| 4 | the element/s/`vararg`/named/' 'role 4 is told as'
changed $manual '/^| types of a class/s/2,048/2,047/' 'limit of types of a class: 2,047'
changed $manual '/^| 15 | d1 has/s/wrong form/marker/' 'refusal 15 is told as'
changed $manual '/^| 16 | the first/d' 'numbers of refusal'
changed $header 's/SHEET_FIRST_UNIT_ZERO = 16/SHEET_FIRST_UNIT_ZERO = 15/' 'refusal FIRST_UNIT_ZERO: 15'
changed $header 's/SHEET_TOO_MANY_TYPES = 10/SHEET_TOO_MANY_TYPES = 9/' 'refusal TOO_MANY_TYPES: 9'
changed $header 's/1 flags 8, 9 signature name ref/1 signature name ref, 5 flags 8/' 'sheet_reader.h: record 2: at 1 signature name'
changed $header 's/SHEET_VARARG_ELEMENT = 4/SHEET_VARARG_ELEMENT = 3/' 'role VARARG_ELEMENT: 3'
changed $header 's/SHEET_ALIASES = 9/SHEET_ALIASES = 8/' 'kind ALIASES: 8'
changed $header 's/SHEET_UNDERLYING = 6/SHEET_UNDERLYING = 7/' 'role UNDERLYING: 7'
changed $manual '/^| 3 | `Array<\*>`/s/a star/any type/' 'projection 3 is told as'
changed $manual '/^| 0 | `Comparable/d' 'numbers of projection'
changed $header 's/SHEET_STAR = 3/SHEET_STAR = 4/' 'projection STAR: 4'
changed $header 's/SHEET_OUT = 1/SHEET_OUT = 0/' 'projection OUT: 0'
changed $header 's/, 9 projection 1//' 'number of cells of record 6: 4'
changed $tool "s/2: 'invariant', 3: 'star'/3: 'invariant', 2: 'star'/" "$tool: projections"
changed crates/declaration_rows/specs/Declarations.antt 's/^star = 3/star = 4/' 'projection STAR: 3; the definitions have 4'
changed $header 's/SHEET_PROPERTY = 4/SHEET_PROPERTY = 5/' 'kind PROPERTY: 5'
changed $header 's/SHEET_TEXT_LIMIT = 65534/SHEET_TEXT_LIMIT = 65535/' 'limit TEXT_LIMIT: 65535'
changed $header 's/SHEET_ROOM_PARAMETER = 9/SHEET_ROOM_PARAMETER = 10/' 'place ROOM_PARAMETER: 10'
changed $header 's/SHEET_ROOM_TEXT_ALIASES = 17/SHEET_ROOM_TEXT_ALIASES = 18/' 'place ROOM_TEXT_ALIASES: 18'
changed $header 's/SHEET_ROOM_ANSWER = 19/SHEET_ROOM_ANSWER = 14/' 'place ROOM_ANSWER: 14'
changed $manual '/^| 7 | records of kind 3, function/s/function/property/' "the room's records"
changed $manual '/^| 13 | records of kind 9/d' 'places of the room'
changed $manual '/^| 14 | bytes of text, properties/s/properties/functions/' "the room's texts"
changed $tool 's/^TEXT_LIMIT = 65534/TEXT_LIMIT = 65535/' 'limit TEXT_LIMIT: 65535'
changed $tool "s/('receiver', 1), ('parameters', 2)/('parameters', 2), ('receiver', 1)/" "$tool: record 3: at 21 parameters"
changed $tool "s/^    5: ('d1 is empty'/    5: ('d1 is short'/" 'refusal 5 is told as'
changed $tool "s/^ROLES = {1: 'returned/ROLES = {0: 'returned/" 'numbers of role'
changed $tool 's/^DETAILS = {6:/DETAILS = {7:/' 'refusals with a detail: \[7, 8, 9, 13, 14, 17\]'
changed $tool "s/15: 'wrong form'/15: 'other form'/" 'names of refusals'
changed $tool "s/9: 'oversized varint'/9: 'long varint'/" 'names of refusals'
changed $java/Records.java 's/{20, 19, 24, 40/{20, 19, 25, 40/' 'bytes of the records: 20, 19, 25'
changed $java/SheetReader.java 's/STRING_LIMIT = 4096/STRING_LIMIT = 4095/' 'limit STRING_LIMIT: 4095'
# the definitions: what is right elsewhere is then wrong
changed crates/sheet/specs/Rows.antt 's/∷ (text ∷ wide 1 ∷ \[\])/∷ (text ∷ wide 2 ∷ [])/' 'the same widths in record_table'
changed crates/inputs/specs/Refusals.antt 's/^number_of text_too_long = 11/number_of text_too_long = 15/' 'refusal TEXT_TOO_LONG: 11; the definitions have 15'
changed crates/inputs/specs/Refusals.antt 's/^number_of sheet_too_long = 12/number_of sheet_too_long = 15/' 'one number for SHEET_TOO_LONG, but \[12, 15\]'
changed crates/converter/specs/Conversions.antt 's/^fault_number wrong_form = 15/fault_number wrong_form = 16/' 'refusal WRONG_FORM: 15; the definitions have 16'
changed crates/converter/specs/Conversions.antt 's/^fault_number nothing_there = 5/fault_number nothing_there = 4/' 'one number for EMPTY'
changed crates/declaration_rows/specs/Rows.antt 's/^expanded_role = 7/expanded_role = 8/' 'role EXPANDED: 7; the definitions have 8'
changed crates/declaration_rows/specs/Rows.antt 's/^argument_role = 5/argument_role = 6/' 'role ARGUMENT: 5; the definitions have 6'
changed crates/declaration_rows/specs/Rows.antt 's/bit p.getter_is_default ∷ bit p.setter_is_default/bit p.setter_is_default ∷ bit p.getter_is_default/' 'the definitions have at 14 setter is default'

if [ "$failed" = 0 ]; then echo "tables: ok, $changes changes found"; else exit 1; fi
