#!/bin/sh
# Candidates of the forms that docs/DESIGN-PASS.md counts, in crates/*/src below this folder: each line that a command finds,
# and how many. With -c the counts alone.
cd "$(dirname "$0")/.." || exit 1
counts_only=$1
src=$(ls -d crates/*/src)

# shellcheck disable=SC2086
show() {
    title=$1
    shift
    found=$("$@")
    if [ -n "$found" ]; then n=$(printf '%s\n' "$found" | wc -l); else n=0; fi
    printf '%s: %d\n' "$title" "$n"
    if [ "$counts_only" != -c ] && [ "$n" -gt 0 ]; then printf '%s\n' "$found" | sed 's/^/    /'; fi
}
find_in() { grep -rnE --include=*.rt "$1" $src; }
answers() { find crates -path '*/proofs/*' -name Answers.antt -not -path '*/out/*' -exec grep -hE '^pub ' {} +; }
after_else() { grep -rnE -A1 --include=*.rt 'else \{$' $src | grep -E "$1"; }

show '1 numbers for kinds' find_in '\bkind: u(8|64)\b|_KIND\b|: u8 = [45];|kind(\(\))?\.number\(\) (==|<)|own_kind\.number|position\(.*, 0\)|number == [A-Z]|number != '
show '1 a flag for a refusal, or beside a value' find_in 'good: bool|mut good|&mut self.*\) -> bool'
show '1 nothing handed on as nothing, without ?' after_else 'return None'
show '1 a reader that has nothing, without ?' after_else 'return Err'
taken_apart() {
    after_else ' +(None|false)$'
    find_in 'else \{ None \}|\bNone => (None|false|true|0|Err|return)|Err\(_?[a-z]*\) => Err\('
}
show '1 an Option or a Result taken apart and put together' taken_apart
show '1 own enums' find_in '^(pub )?enum '
show '2 functions of one name or one work' find_in 'fn (position|find_exact|is_before|same_label|is_same|same_name|addresses_len|pieces_len|report|print_fault|by_id|for_word)\b|MAX_STEPS: '
show '3 loops' find_in '\bwhile |for [a-z_]+ in \(?[a-z0-9_.()]+\.\.'
show '4 comparisons and conversions of our own' find_in '^impl.*\b(PartialEq|Eq|PartialOrd|Ord|Clone|Copy|Default|From<.*>|TryFrom<.*>|Display) for'
show '4 numbers of newtypes compared' find_in '\.0 (==|<=?|>=?) .*\.0|number(\(\))? (==|<|>) [a-z]'
show '4 texts and numbers made by hand' find_in 'fn (print_(fault|addresses)|report|digit|hex_digit|new\(number)'
show '5 parameters that travel together' find_in 'apex: &?Name, *[a-z]|^ +apex: &?Name,$|negative: Ttl,|place: usize, id: QueryId|ticket: u64, name'
show '5 a fact asked again and again' find_in 'requires .*(sorted|Searchable)'
show '6 lengths beside buffers, parallel lists' find_in 'count: u(8|size),|ends: \[|places: \[|fronts: Vec|: &\[u64\]'
show '6 halvings by hand' find_in 'high - low'
show '7 enums and chains that choose a test' find_in 'enum (Class|Rule)|Class::|Rule::|if is_word|if form =='
show '8 answers in proofs' answers
