#!/bin/sh
# Counts the places of the older language's forms in the sources of a checkout: sh tools/count_forms.sh [FOLDER]
cd "${1:-.}" || exit 1
row() { # point, what, pattern
    printf '%s  %4d  %s\n' "$1" "$(grep -rnoE -e "$3" crates/*/src --include='*.rt' | wc -l)" "$2"
}
row 1 'checks that answer an Option of a refusal' '-> Option<Fault>'
row 1 'such answers handed on by hand' 'if let Some\(fault\)'
row 1 'an Option or a Result handed on by a match' '(None|Err\(error\)) => (return )?Err\(|let Err\(error\) ='
row 1 'the same by let .. else' 'let (Some\(.*\)|None) = .* else|^    \) else \{|let \(Some.* else'
row 1 'refusals listed with their numbers outside their enum' 'number: [0-9]+ \}|::[A-Za-z]+ => [0-9]+,|=> \([0-9], 0, 0\)|const TOO_LONG|fn count\(&mut self, sheet'
row 1 'a bool that says whether it was done' 'fn (push|append|append_at)[(<].*bool'
row 1 'flags' '(yes|no): bool'
row 2 'the same for each of three copies' 'copy[012]: |begins[012]|if up\['
row 2 'numbers that the rules fix, as constants' 'const (LIMIT|PLACES|MOST_ENTRIES|MOST_SENT|EPOCHS|SEATS)\b'
row 2 'main and run of a program that plays a sheet' '^fn run\(rt'
row 3 'loops over a range' 'for .* in .*\.\.'
row 3 'all loops' '^ *(for|while|loop)\b'
row 4 'types that are copied and neither compared nor printed' 'derive\(Clone, Copy\)'
row 4 'conversions and comparisons as functions' 'fn (from_row|row|is_done|is_closed|epoch|members)\('
row 4 'From and Display by hand' 'impl (From|fmt::Display)'
row 4 'text put together by hand' 'format!'
row 5 'table lengths said again' '(512|2048|1024|8) ≤ (vec_len|length)'
row 5 "a controller's number is below 8" '(c|controller|follower|sender|from) < 8'
row 5 'a number made an index' 'let c = controller as usize'
row 5 'the controller looked up' 'let me = self.controllers\[c\]'
row 5 'are the tables long enough' 'long_enough\(tables\)'
row 5 'sets of controllers as bare numbers' '(members|to|yes): u8'
row 5 'envelopes put together in full' 'sender: controller'
row 6 'a length beside a buffer, as a field or a parameter of its own line' '^    (pub )?len: (u32|usize),$'
row 6 'what is left of a row, handed on by hand' '(rest|fields): Option<&'
row 7 'closures, dyn, function pointers' 'dyn |Box<|: fn\('
printf '8  %4d  lines of answers and invariants\n' "$(git ls-files 'crates/*/proofs/*' | grep -E '(Answers|Invariants)\.antt$' | xargs cat | wc -l)"
printf '8  %4d  lines of proofs\n' "$(git ls-files 'crates/*/proofs/*' | xargs cat | wc -l)"
printf '8  %4d  detours from 0 = 1 in proofs and specs\n' "$(grep -rn '{A = ℕ} 0 1 = cc' crates --include='*.antt' --exclude-dir=out | wc -l)"
