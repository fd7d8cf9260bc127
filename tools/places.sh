#!/bin/sh
# Lists the lines of src/ at which a place of docs/DESIGN-PASS.md may stand, and how many there are of each kind.
# Run at the top of the repository; `-c` prints the counts alone.
show() {
    if [ "$counts" ]; then
        printf '%-22s %s\n' "$1" "$(printf '%s' "$2" | grep -c .)"
    else
        printf '== %s\n%s\n' "$1" "$2"
    fi
}
find_lines() {
    grep -rnE -- "$1" crates/*/src | grep -v '/tests.rt:' | grep -vE '^[^:]*:[0-9]*:\s*//'
}
[ "$1" = -c ] && counts=yes
show '1 enums' "$(find_lines '^\s*(pub(\(crate\))? )?enum ')"
show '1 flags' "$(find_lines '-> bool|: bool')"
show '1 numbers' "$(find_lines '-> u8\b|NO_ROOM|1_000_036|op: u64|fn (number|code|kind|kind_number)\(|number: u64|code: u64')"
show '2 types' "$(find_lines '^\s*(pub(\(crate\))? )?(enum|struct|type) ')"
show '2 functions' "$(find_lines '\bfn ')"
show '3 loops' "$(find_lines '\b(for .* in|while|loop)\b')"
show '4 equality' "$(find_lines 'fn (same|is|eq|ne|cmp|lt)\(')"
show '4 conversions' "$(find_lines 'fn (number|code|value|layer|name|digit|tell|from_\w+|to_\w+|read_(verb|object|memory|number)|from|try_from)\(')"
show '4 printing' "$(find_lines 'fn (put|put_\w+|push_\w+|add_line|line_len|line_of|fault_line|layer_name|fmt)[(<]')"
show '4 errors by hand' "$(find_lines 'Err\((e|refusal|_)\) =>|Ok\(\(\)\) =>|None => None|Some\(\w+\) => Some')"
show '4 no derive of ==' "$(grep -rnE -A3 '^\s*#\[derive' crates/*/src | grep -E 'derive\(' | grep -v PartialEq)"
show '5 requires' "$(find_lines 'requires ')"
show '5 ensures' "$(find_lines 'ensures ')"
show '6 length beside' "$(find_lines '^\s*(pub(\(crate\))? )?(count|len|at|n): usize|\[[^]]*; [0-9]+\]')"
show '7 switches' "$(find_lines '\bmatch ')"
