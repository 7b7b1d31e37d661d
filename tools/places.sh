#!/bin/sh
# Counts the places that docs/DESIGN-PASS.md speaks of, point by point, in the sources of the crates.
# With -l it lists them. Run it at the top of the repository.
set -u
found=$(mktemp)
trap 'rm -f "$found"' EXIT
show=${1:-}
find_all() {
    grep -rnE "$2" crates/*/src --include='*.rt' | grep -vE '^[^:]*:[0-9]+: *//' > "$found"
    echo "$1: $(wc -l < "$found")"
    if [ "$show" = -l ]; then sed 's/^/    /' "$found"; fi
}
find_all '1a enums' '^ *(pub )?enum '
find_all '1b sentinels' 'const (NONE|REFUSED)\b'
find_all '1c flags in structs' '^ +(pub )?[a-z_]+: bool,$'
find_all '1d outcomes as bool, or a value beside whether there is one' 'fn [a-z_]+(<.*>)?\(&mut self.*-> bool|-> \(Option<'
find_all '1e refusals answered by number, one by one' 'Refusal::[A-Za-z]+\.answer\(\)|return Answer::No'
find_all '2a types with lent slices or a buffer, and how far' '^(pub )?struct (Page|Room|Buffer|Word|Transcript|Accounted|Recorder|LentRecorder|Exchange|Output|Lanes|Rows)\b'
find_all '2b types of bounded numbers' '^pub struct (TaskId|LockId|QueueId|Rank|Id|Ids)\b'
find_all '2c functions that stand twice or oftener' 'fn (read_into|compare|example|first_difference|tick_lines|is_tick|meets|word_meets|is_near|write_at|play_into|play|record|turn|asks|end_band|same|alike|is_mine|is_owned_by)\b'
find_all '3 loops that count by hand' 'for [a-z_]+ in 0\.\.|while [a-z]+ [<>]'
find_all '4a equality, least and digits by hand' '(index|number)\(\) == |fn (same|alike|is_like|is_owned_by|is_mine|is_nobody|least|digits|spell)\b|fn is_done\(a'
find_all '4b true or false by a match' '=> (true|false),$'
find_all '4c None, 0 or false for None' 'None => (None|false|0|true),'
find_all '4d conversions by hand' 'fn (new\((number|lock|quota): u32|of\(|of_[a-z]+\(|number\(self|index\(self|get\(self|answer\(self|kind\(self|step\(self|call\(self|parts\(self)'
find_all '4e casts' ' as (u8|u16|u32|u64|usize)\b'
find_all '4f printing by hand' '(text|number|long|words)\(.*b"|\.(number|long)\('
find_all '5a parameters that travel together' 'tasks: &(mut )?Tasks, wants: &Wants|sheet: &Sheet.*pen: &mut Pen|sheet: &Sheet,$'
find_all '5b what a scheduler stands for, in contracts' '\(h : House\) → Holds '
find_all '6a lengths beside buffers' '^ +(pub )?(len|used|steps|at): usize,'
find_all '6b arrays in structs' '^ +(pub )?[a-z]+: \[[A-Za-z<>0-9]+; [A-Za-z0-9_]+\],'
find_all '7 switches on a step' 'match self\.layer'
answers=$(git ls-files 'crates/*/proofs/*Answers.antt' | wc -l)
lines=$(git ls-files 'crates/*/proofs/*.antt' | xargs cat | wc -l)
echo "8 files of answers: $answers, lines of proofs: $lines"
