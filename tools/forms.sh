#!/usr/bin/env bash
# usage: forms.sh [COMMIT]
# Counts the places of src/ that have the forms of the older language, as docs/DESIGN-PASS.md has them: a line for each kind of place, with its
# count at the commit. The pattern beside a count is what finds the places: `git grep -nP PATTERN COMMIT -- 'crates/*/src/*.rt'` shows them.
set -euo pipefail
cd "$(dirname "$0")/.."
commit=${1:-HEAD}

count() { # POINT WHAT PATTERN [CRATES]
    local found
    found=$(git grep -hP "$3" "$commit" -- "crates/${4:-*}/src/*.rt" | wc -l) || true
    printf '%s | %s | %d | `%s`\n' "$1" "$2" "$found" "$3"
}

count 1 'enums of an answer' '^(pub )?enum (Answer|Outcome|Changed|Extraction|Sizing|Verdict) '
count 1 'structs of a number and a value' '^    pub number: u8,'
count 1 'tests that answer the number of a refusal' 'fn (refusal_of\w*|copied|level_refusal)\('
count 1 'tests of such a number' 'if (\w+\.)?\w*(number|earlier)\w* (!=|==) 0'
count 1 'numbers of kinds' '^(pub )?const (NOTHING|IN_FULL|DIGEST|BUILD|ROOT|STORELESS_ROOT|OPEN|PERMUTE|UNPERMUTE|COMPRESS|TEST|MARK|LEVEL|SEARCH): u64 = [0-7];'
count 1 'matches on the number of a kind' '^    match (which|what|entry) \{|if (kind|what)\.value == '
count 2 'functions for one width' 'fn (seventh_roots|raised|factor|unexternal|unround|sums|m4_blocks|external|raise|others|partial|full_rounds|partial_rounds|permute)(4|8|12)\b'
count 2 'functions for 12 places and for 208' 'fn (hold_twelve|hold_constants|hold_used|hold_used_constants|twelve_at|constants_at|put_twelve|put_constants)\('
count 2 'functions for records and for their numbers' 'fn (each|search|rise|each_listed|search_listed|rise_listed|test_listed|mark_listed|level_listed)\(' passes
count 2 'functions for one answer' 'fn of_(answer|changed|extraction)\('
count 2 'functions on the first part of a buffer' 'fn (entry_to|entry_to_part|replace_in_part|in_part|in_place|on_part|compress_to|leaf_to|part_of)\('
count 3 'loops that count by hand' '^ *(while|loop)\b'
count 3 'loops over the places of a list' '^ *for \w+ in 0\.\.[a-z_.]*len\('
count 4 'comparisons of list places by hand' 'if \w+\[i\] != \w+\[i\]|if number == (\w|numbers\[i\]) \{'
count 4 'conditions answered by returns' '^        return (true|false);'
count 4 'copies of list places by hand' '^ +\w+\[(\w+ \+ )?\w+\] = \w+\[(\w+ \+ )?\w+\];'
count 4 'fields copied one by one' '^ +(\w+): (tally|set|numbers)\.\1,'
count 4 'calls that print text or a number by hand' 'output::(text|number|operand|end_line)\(|answers::refused\('
count 5 'the facts of a set that is accepted' 'first_refusal \(set_refusals set\) ≡ 0'
count 5 'the facts of rounds' '\(1 ≤ half\) × \(half ≤ 6\)'
count 5 'the facts of dimensions' '\(Valid(Set d constants\.now|Numbers d)\)'
count 5 'D and C beside the numbers of rounds or of a tree' 'diagonal: &\[u64; 12\]'
count 5 'the input beside the place that is read next' 'input: &\[u8\],'
count 6 'buffers with a count beside' '^    (pub )?count: usize,'
count 7 'switches on a step' 'if (phase|entry) == '

answers() { git grep -hE '^pub [^ ]+ : goal[.]' "$commit" -- crates | wc -l; }
printf '8 | answers of goals | %d | `^pub [^ ]+ : goal[.]` in crates/*/proofs\n' "$(answers)"
printf '8 | lines of proofs | %d | all of crates/*/proofs\n' "$(git grep -h '' "$commit" -- 'crates/*/proofs/*.antt' | wc -l)"
