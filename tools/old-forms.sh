#!/usr/bin/env sh
# Counts the places of old forms in crates/*/src, by the commands that docs/DESIGN-PASS.md names: a place found is a place to look at, not a verdict.
set -eu
cd "$(dirname "$0")/.."
at() { grep -rnE --include='*.rt' "$1" crates/*/src || true; }
echo "1a own enums:                                   $(at '^(pub )?enum ' | wc -l)"
echo "1b flags as fields:                             $(at '^\s+(pub )?(there|ok|loaded|used|carried|whole|named|kept|over|failed|more|unclosed|hollow|fresh|done|least): bool' | wc -l)"
echo "1c numbers for kinds, as fields and parameters: $(at '\b(form|keep|status|number|fault|digit|what|error|kind): (u8|i32|u64)\b' | wc -l)"
echo "3  loops that count by hand:                    $(at '^\s*while ' | wc -l)"
echo "   loops over a range or an iterator:           $(at '^\s*for ' | wc -l)"
echo "4a tests joined by functions:                   $(at 'bounds::(both|either|at_most|within)\(|^\s+(both|either|at_most)\(|[ (](both|either|at_most)\(' | wc -l)"
echo "4b conversions by as:                           $(at ' as (u8|u16|u32|u64|usize|i32)\b' | wc -l)"
echo "5  functions with six parameters or more:       $(python3 - <<'PY'
import glob, re
n = 0
for p in glob.glob('crates/*/src/**/*.rt', recursive=True):
    for m in re.finditer(r'fn \w+[^(]*\(([^)]*)\)', open(p).read()):
        n += len([x for x in m.group(1).split(',') if ':' in x or x.strip() in ('self', '&self', '&mut self')]) >= 6
print(n)
PY
)"
echo "7  enums that choose what a helper tests:       $(at '(stop|want|mode|which): (Stop|Wanted|Want|Mode)\b' | wc -l)"
echo "8  aliases in answers (let x = c in):           $(grep -rnE '^\s+let \w+ = \w+ in$' crates/*/proofs | wc -l)"
