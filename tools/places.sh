#!/bin/bash
# Counts the places of docs/DESIGN-PASS.md in the sources below the folder that is given (or here), a line for each command.
# The word `list` behind the folder prints the places themselves.
cd "${1:-.}" || exit 1
src=$(ls crates/*/src/*.rt)
places() {
    local found
    found=$(grep -nE "$2" $src)
    echo "$1: $(echo -n "$found" | grep -c '')"
    [ "$3" = list ] && echo "$found"
}
places "1a own enums that hold none, a refusal or an error" '^    (Pending|Refused\(Refusal\)|Unknown|Neither|Free\(Option<u16>\)),?$|^    (Pending|Refused|Unknown),|^    Refused\(' "$2"
places "1b numbers for kinds, refusals and findings" 'kind: (u32|usize)|-> usize \{$.*kind|REFUSED|9000|9001|\b999\b|fn (number|returned|refused|kind_of)\(|Err\(_\) => (None|0)|Ok\(o\) => o' "$2"
echo "2 functions that stand under one name and one shape in more than one place: $(grep -hoE 'fn [a-z_]+[^{]*' $src | sed 's/self.*//; s/ *$//' | sort | uniq -d | grep -cvE 'fn (main|run|fmt|from|new|make|sizes|cell|wipe|put|clear|least|last|has|count|earliest|capacity|add|remove|next|from_str|try_from|number|shuttle|place)\b')"
places "3a loops over numbers, and loops with a test" 'for [a-z_]+ in [^{]*[0-9a-z_.()]\.\.|while ' "$2"
echo "3b of these, loops whose number indexes a slice or an array: $(perl -0777 -ne 'while (/for (\w+) in [^{\n]*\.\.[^{\n]*\{\n((?:.*\n){1,9})/g) { my ($i, $b) = ($1, $2); $n++ if $b =~ /\[\Q$i\E\b/ } END { print $n + 0 }' $src)"
places "4 equality, order, conversion and printing by hand" 'fn (same|alike|is|is_wait|is_before|unchanged|text|reason|[a-z_]*_line|[a-z_]*_word|told|asked|name_of|store_name|say|yes_or_no|narrowed|packed_number|copy|read_table|read_store|read_name|tell|mode_of|kind_named|smaller|sooner|nearer|earlier|later_of|set|put)\(|/ 256|% 256|/ 4096|% 4096' "$2"
places "5a parameters that travel together" 'shuttles: u16, moves: u16|k: u16, n: u16|first: u16, second: u16|out: &mut \[u8\], at: usize|table: &T, way: Way|rt: &HostRuntime, (script|size)|record: &mut Record|records: &\[Record\], at: Option' "$2"
echo "5b requires that stand at three functions or more: $(grep -hoE 'requires [^}]*\}' $src | sed 's/self\.old/self.now/g' | sort | uniq -c | awk '$1 >= 3 { n += $1 } END { print n + 0 }')"
places "6 buffers with a length beside, parallel arrays, arenas of indices" "used: usize,|count: u16,|at: usize\) -> usize|fn [a-z_]+\(out: &mut \[u8\]|Vec<Option<u16>>|end: Vec<u16>|first: Vec|calls: \[u64|done: \[u64|records: &'a mut \[(Wait|Record)\]|cells: &'a mut \[u16\]|tail: usize" "$2"
places "7 a switch on which step to run" 'match (way|kind|table|setup\.table|store|setup\.store|asked_mode|mode)\b|if kind == ' "$2"
echo "8 answers: $(find crates/*/proofs -name Answers.antt -exec cat {} + | grep -cE '^pub .* : goal\.'), their files: $(find crates/*/proofs -name Answers.antt | wc -l), lines of proofs: $(find crates/*/proofs -name '*.antt' -exec cat {} + | wc -l)"
