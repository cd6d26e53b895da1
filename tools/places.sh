#!/usr/bin/env bash
# Counts, in the checkout where it is run, the places that the design pass looks at. Tests are left out: whole files of tests, and test crates.
# With -l it lists them.
set -u
list=${1:-}
src=$(ls crates/*/src/*.rt | grep -Ev '/(bank_suite/src/tests|row_tests/src/lib|syntax_tests/src/lib|pattern_tests/src/lib|distances_tests/src/lib|session_tests/src/[a-z]+)\.rt')
count() { # name, pattern
    local found
    found=$(grep -nE "$2" $src)
    printf '%s: %s\n' "$1" "$(printf '%s' "$found" | grep -c '')"
    if [ "$list" = -l ]; then printf '%s\n' "$found" | sed 's/^/    /'; fi
}
echo '## 1. own results, flags, numbers for kinds'
count 'enums' '^ *(pub(\(crate\))? )?enum '
count 'cases of an own enum that is a refusal beside an answer' '^ *(Refused|UnknownKind)(\(|,| \{)'
count 'numbers that stand for a kind' '^pub(\(crate\))? const [A-Z]+: u8|(unit|K::unit_length\(\)) == [12]|\bnumber: u8'
count 'errors that are bare numbers' 'Result<[^<>]+, (u8|u16|usize)>'
count 'refusals told by a flag' 'fn measure\(.*-> bool'
count 'errors matched only to name another' 'Err\(_\) => (Err|return Err)|else \{$|if let (Err|None|Some)\(.*\) = '
echo '## 2. twins'
count 'a function for one of several like cases' 'fn (has_within|has_next|has_cross|has_link|no_symbol|no_memory|is_word|words_equal|kind_of|kind_name|answer_letters|answer_tiles|colour|colour_letter|join|join_raised|backward_range|empty_class|wrong_bound|counted|nested|count|count_places|spend|spend_each|clear|copy|cat|alt|one|either|in_order|in_choice|is_in|need_of|hint_of)\b'
count 'the same arm written for two cases' 'Node::(Class|Alt)\([^|]*\) => '
count 'types that differ only in a name' 'enum (KindName|Alphabet) '
echo '## 3. loops'
count 'while loops' '^ *while '
count 'for over a range of numbers' '^ *for [a-z_]+ in [^{]*\.\.'
count 'for over a collection' '^ *for [^{]* in [^{]*(iter|chunks|zip|&|as_slice|\.get|rev\(\))'
echo '## 4. by hand what derives and traits do'
count 'equality, conversion, naming by hand' 'fn (equals|by|is_word|words_equal|kind_of|kind_name|name|words|as_byte|alphabet|number|unit_length|before|earlier|boxed)\b'
count 'conversions by as' ' as (u8|u16|u32|u64|usize|char)\b'
echo '## 5. facts and parameters that travel together'
grep -hoE 'requires( [a-z]+)? \{.*\}' $src | sed -E 's/requires( [a-z]+)? //' | sort | uniq -c | sort -rn | awk '$1 >= 3 {n++; s += $1; if (l == "-l") print "    " $0} END {printf "requires that stand in three or more contracts: %d facts, %d places\n", n, s}' l="$list"
count 'an area and its layout, or a reader with its text and unit' 'layout: &Layout, *$|layout: &Layout, area|unit: usize, s: &\[u8\]|^ *layout: &Layout,$'
echo '## 6. fixed arrays, lengths beside them, parallel arrays'
count 'fields that are arrays' '^ *(pub(\(crate\))? )?[a-z_]+: \[.*; [0-9]+\],$'
count 'a length or a count beside them' '^ *(pub(\(crate\))? )?(len|used|places): usize,$'
echo '## 7. which step to run'
count 'closures and function parameters' '\|[a-z_&, ]*\| |impl Fn|: Fn|FnOnce|FnMut|\(Refusal::[A-Z][a-z]+\)'
count 'dyn' '\bdyn '
echo '## 8. proofs'
echo "lines in proofs/: $(find crates/*/proofs -name '*.antt' 2>/dev/null | xargs cat | wc -l)"
echo "answers: $(find crates/*/proofs -name 'Answers.antt' | xargs grep -hE '^pub [^ ]+ : goal' | wc -l)"
echo "lines in specs/: $(cat crates/*/specs/*.antt | wc -l)"
echo "lines in src/: $(cat $src | wc -l)"
