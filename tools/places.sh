#!/bin/bash
# Counts, crate by crate, the places in src/ where older forms of the language may stand. Run at the top: tools/places.sh [-l]
# (-l lists the lines). A line is one place; what is found is looked at by hand, and docs/DESIGN-PASS.md says what became of it.
list=${1:-}
places() {
    local name=$1; shift
    local found
    found=$(grep -rnE --include=*.rt "$@" crates/*/src | grep -vE '^[^:]*:[0-9]*: *//')
    printf '%-58s %4d\n' "$name" "$(printf '%s' "$found" | grep -c .)"
    if [ "$list" = -l ] && [ -n "$found" ]; then printf '%s\n' "$found" | sed 's/^/      /'; fi
}
places '1 a fault handed out as Option<Fault>' 'Option<[A-Za-z]*Fault>'
places '1 a maker that answers an Option' 'fn (new|read|of|encode)\b.*Option<'
places '1 Ok and Err handed on by hand' '(^|[^a-z])(Ok\([a-z_()]*\) => Ok\(|Err\([a-z_]*\) => (return )?Err\()'
places '1 return Err in a let-else or a match' '^ {8,12}return Err\('
places '1 the number of a case by a match' '=> [0-9]+,$'
places '1 numbers for kinds or refusals' 'number: u8|methodology: u8|-> u8( |$)|\[bool; [0-9]+\]|= \(bool'
places '1 a flag' '[a-z_]+: bool(,|\))'
places '3 while' '\bwhile\b'
places '3 for over numbers' 'for [a-z_]+ in [^{]*\.\.'
places '4 conversions by name' 'fn (of|encode|decode|numbered|settings_by)\b'
places '4 a blank value spelled out' 'const (BLANK|UNUSED)|day: 0 \}|issued: false,|vec!\[in heap; PlacedReading|\[PlacedReading \{'
places '4 casts' ' as (u8|u16|u32|u64|u128|usize|i32|i64)\b'
places '5 a premise of order in a contract' 'Rising [A-Za-z_.]* \([a-z ._]*\) →|Orderly [a-z.]* →'
places '5 the unit of a store in a contract' 'unit\.first unit\.count'
places '5 store and unit as parameters' 'store: &S, unit: Unit|unit: Unit,$'
places '6 a length beside a buffer' '^    (used|count|start): usize,'
places '6 a place in a buffer passed on' 'at: usize[,)]'
places '7 a switch on the kind of a step' 'kind < [0-9]|assessing: bool'
printf '%-58s %4d\n' '8 lines of answers and invariants' "$(cat $(find crates/*/proofs -mindepth 2 -name '*.antt') | wc -l)"
printf '%-58s %4d\n' '8 files of answers and invariants' "$(find crates/*/proofs -mindepth 2 -name '*.antt' | wc -l)"
printf '%-58s %4d\n' '8 lines of lemmas' "$(cat crates/*/proofs/*.antt | wc -l)"
