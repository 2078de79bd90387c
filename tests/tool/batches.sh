# Many sheets at once: the order, faulty ones among them, the count, and the exit status.

ends "a folder" 1 planner batch sheets --jobs 4
ls sheets/*.txt | sed 's/.*/{"file":"&",/' >"$work/wanted"
cut -d , -f 1 "$work/out" | sed 's/$/,/' | cmp -s - "$work/wanted" || fail "a folder: another order"
planned=$(grep -l '^# answer: ratio' sheets/*.txt | wc -l)
expect "a folder: planned" "$(grep -c '"answer":"planned"' "$work/out")" "$planned"
holds "a folder: the count" "$(cat "$work/err")" "$(ls sheets/*.txt | wc -l) sheets: $planned planned, 1 refused 12, "
for jobs in 1 2 16; do
  planner batch sheets --jobs $jobs 2>/dev/null | cmp -s - "$work/out" || fail "$jobs jobs: other lines"
done

# each line is what `plan --json` prints, but for the run that undercuts the ratio, which a batch does not search for
for file in sheets/bench.txt sheets/production.txt sheets/feed-in.txt; do
  alone=$(planner plan "$file" --json | sed 's/\("undercut":{[^{}]*\),"run":.*/\1}}/' || true)
  grep -qxF "$alone" "$work/out" || fail "$file: another line than plan --json"
done

# what is faulty does not stop the others
ends "faulty ones" 4 planner batch sheets/bench.txt sheets/wrong/unknown-target.txt "$work/none.txt" sheets/one-way.txt sheets/bench.txt
expect "faulty ones" "$(sed 's/.*"answer":"\([a-z]*\)".*/\1/' "$work/out" | paste -sd ' ')" "planned mistakes unreadable refused planned"
holds "faulty ones: the mistake" "$(sed -n 2p "$work/out")" '"line":7'
holds "faulty ones: the count" "$(cat "$work/err")" "5 sheets: 2 planned, 1 refused 13, 1 unreadable, 1 with mistakes; "
ends "a mistake" 3 planner batch sheets/bench.txt sheets/wrong/unknown-target.txt sheets/one-way.txt
ends "all planned" 0 planner batch sheets/bench.txt sheets/beacon.txt

# hexadecimal sheets, a line each; empty lines count but have no answer
{ planner hex sheets/bench.txt; echo; echo 01zz; echo 0101; planner hex sheets/production.txt; } >"$work/list"
ends "a list" 3 planner batch - <"$work/list"
expect "a list" "$(sed 's/"answer":"\([a-z]*\)".*/\1/' "$work/out" | paste -sd ' ')" \
  '{"file":"standard input:1",planned {"file":"standard input:3",mistakes {"file":"standard input:4",refused {"file":"standard input:5",planned'
holds "a list: the mistake" "$(sed -n 2p "$work/out")" '"mistakes":[{"line":3,"column":3,'
ends "files and a list" 1 planner batch sheets/bench.txt - sheets/one-way.txt <<<"$(planner hex sheets/bench.txt)"
expect "files and a list: lines" "$(wc -l <"$work/out")" 3
ends "an empty list" 0 planner batch - </dev/null
expect "an empty list" "$(cat "$work/err")" "no sheets"

# a line that is too long does not stop the others, and an input that fails does not go on for ever
{ cat "$work/list"; head -c 2000000 /dev/zero | tr '\0' 0; echo; planner hex sheets/bench.txt; } >"$work/long"
ends "a long line" 4 planner batch - <"$work/long"
expect "a long line" "$(sed 's/.*"answer":"\([a-z]*\)".*/\1/' "$work/out" | tail -2 | paste -sd ' ')" "unreadable planned"
for length in 999998 1000000 1000001; do
  { head -c $length /dev/zero | tr '\0' 0; echo; planner hex sheets/bench.txt; planner hex sheets/bench.txt; } >"$work/long"
  planner batch - <"$work/long" >"$work/out" 2>/dev/null || true
  expect "a line of $length characters: lines" "$(wc -l <"$work/out")" 3
done
ends "a folder as standard input" 4 bash -c 'planner batch - <sheets | head -n 5; exit ${PIPESTATUS[0]}'
expect "a folder as standard input: lines" "$(wc -l <"$work/out")" 1

# in a folder: a link to nothing and a pipe are told, folders are passed over, and at most ten mistakes stand in a line
mkdir -p "$work/folder/inner.txt"
ln -s none "$work/folder/link.txt"
mkfifo "$work/folder/pipe.txt"
seq 2000 | sed 's/.*/q/' >"$work/folder/wrong.txt"
cp sheets/bench.txt "$work/folder/yes.sheet"
cp sheets/bench.txt "$work/folder/no.md"
# a tool that opened the pipe would find a writer, and read nothing
: >"$work/folder/pipe.txt" &
ends "an odd folder" 4 planner batch "$work/folder"
exec 8<>"$work/folder/pipe.txt"
wait
exec 8>&-
expect "an odd folder" "$(sed 's/.*"answer":"\([a-z]*\)".*/\1/' "$work/out" | paste -sd ' ')" "unreadable unreadable mistakes planned"
expect "an odd folder: mistakes" "$(sed -n 3p "$work/out" | grep -o '"line":' | wc -l)" 10
holds "an odd folder: more" "$(sed -n 3p "$work/out")" '"more":990'

# an answer comes while standard input stays open, and is waited for
coproc batch { planner batch - 2>/dev/null; }
planner hex sheets/bench.txt >&"${batch[1]}"
answer=
read -r answer <&"${batch[0]}" || true
holds "an open input" "$answer" '"answer":"planned"'
exec {batch[1]}>&-
wait

# many more than the window, in their order
for i in $(seq 3000); do cat "$work/list"; done | grep -v '^$\|z' >"$work/many"
ends "many" 1 planner batch - <"$work/many"
expect "many: the order" "$(sed 's/{"file":"standard input:\([0-9]*\)".*/\1/' "$work/out" | cmp - <(seq "$(wc -l <"$work/many")") && echo kept)" kept

# a bar with rate and time left where standard error is a terminal, and nowhere else
folders=$(printf 'sheets %.0s' $(seq 100))
script -qec "planner batch $folders >'$work/lines'" /dev/null >"$work/terminal" </dev/null || true
grep -q '#*  *\] [0-9]* of [0-9]*, [0-9]* a second, [0-9]* s left' "$work/terminal" || fail "a terminal: no bar"
expect "a terminal: lines" "$(wc -l <"$work/lines")" "$((100 * $(ls sheets/*.txt | wc -l)))"
script -qec "planner batch sheets" /dev/null >"$work/terminal" </dev/null || true
expect "a shared terminal: lines" "$(grep -c '{"file":' "$work/terminal")" "$(ls sheets/*.txt | wc -l)"
planner batch sheets >"$work/out" 2>"$work/err" || true
expect "no terminal: lines on standard error" "$(wc -l <"$work/err")" 1
