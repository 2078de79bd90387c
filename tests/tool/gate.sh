# .ci/gate: a table before the last line of `rt ci`, and its status; must-fail edits that are bad fail it. `rt` is a stand-in that says what was
# recorded, and that has the prover's processes in a folder in place of /proc.

mkdir -p "$work/gate"
cat >"$work/gate/rt" <<'END'
#!/bin/bash
[ "$*" = ci ] || exit 2
# process NUMBER PARENT TICKS-BY-ITSELF TICKS-FOR-IT FOLDER WORD..: a process that works in the folder
process() {
  mkdir -p "$PROC/$1"
  echo "$1 (a (strange) name) R $2 1 1 0 -1 0 0 0 0 0 $3 $4 900 900 20 0 1 0 777 0 0" >"$PROC/$1/stat"
  printf '%s\0' "${@:6}" >"$PROC/$1/cmdline"
  ln -sfn "$5" "$PROC/$1/cwd"
}
ticks=$(getconf CLK_TCK)
process $PPID 1 0 0 / bash .ci/gate
process $$ $PPID $((900 * ticks)) 0 / python3 rt ci
here=/home/nobody/crates/
process 70000001 $$ $((2 * ticks)) $ticks ${here}integers rattle build --crate-name integers src/lib.rt
process 70000002 $$ $((30 * ticks)) $((2 * ticks)) ${here}sheet rattle build --crate-name sheet src/lib.rt
process 70000003 70000002 $((12 * ticks)) 0 ${here}sheet rattle build --crate-name sheet src/lib.rt
process 70000004 $$ $((ticks * 3 / 2)) $((ticks / 2)) ${here}plan rattle check --crate-name plan src/main.rt
process 70000005 $$ $((9 * ticks)) 0 ${here}walks rattle build --crate-name walks src/lib.rt
process 70000006 $$ $((4 * ticks)) 0 /elsewhere/rt-edit-70-a rattle check --crate-name integers src/lib.rt
process 70000007 $$ $((40 * ticks)) 0 /elsewhere/rt-edit-70-b rattle check --crate-name sheet src/lib.rt
process 70000008 $$ $((41 * ticks)) 0 /elsewhere/rt-edit-70-c rattle check --crate-name sheet src/lib.rt
process 70000009 $$ $((50 * ticks)) 0 /elsewhere/rt-edit-70-d rattle check --crate-name sheet src/lib.rt
# of somebody else, and no prover
process 70000010 1 $((800 * ticks)) 0 ${here}sheet rattle check --crate-name sheet src/lib.rt
process 70000011 $$ $((700 * ticks)) 0 ${here}sheet clang sheet.ll
cat "$SAID"
echo "what goes to standard error" >&2
exit "$STATUS"
END
chmod +x "$work/gate/rt"
cat >"$work/said" <<'END'
== integers
logic=proved functions=0
rt: integers proved
rt: integers: trying its must-fail edits (1)
rt: buffers is kept: an earlier run on this machine proved the same files over the same libraries
rt: sheet proved
rt: sheet: its tests are proved
rt: plan proved
rt: walks NOT PROVED
rt: buffers: 2 of its 2 must-fail edits were tried by an earlier run on this machine, and nothing that they stand on has changed
rt: must-fail buffers/first.edit: refused, as it must be
rt: must-fail buffers/second.edit: refused, as it must be
rt: must-fail integers/one.edit: refused, as it must be: specs/One.antt:1:2: error: not so
rt: must-fail sheet/two_s.edit: refused, as it must be: src/two.rt:10:20: it is not proved: 100 s)
rt: must-fail sheet/three.edit: refused, as it must be
rt: must-fail sheet/four.edit: NOT REFUSED: the crate is still proved with this edit (one that means the same as before cannot be refused: remove it)
rt: plan ran, and wrote what its file stdout has
rt: plan ran (built by Rattle's own compiler), and wrote what its file stdout has
rt: FAILED: walks sheet/four.edit
6 passed, 2 failed
END
gate() { env SAID="$work/said" STATUS="$1" PROC="$work/proc" PATH="$work/gate:/usr/bin:/bin" .ci/gate; }
for status in 0 1 2; do
  rm -rf "$work/proc"
  ends "the gate, status $status" $status gate $status
  expect "the gate, status $status: standard error" "$(cat "$work/err")" "what goes to standard error"
done
lines=$(wc -l <"$work/said")
expect "the gate: what rt says" "$(head -n $((lines - 1)) "$work/out")" "$(head -n $((lines - 1)) "$work/said")"
expect "the gate: the last line" "$(tail -n 1 "$work/out")" "6 passed, 2 failed"
expect "the gate: the last line, once" "$(grep -c ' passed, ' "$work/out")" 1
expect "the gate: the table" "$(sed "1,$((lines - 1))d" "$work/out" | awk 'NF == 6 { print $1, $2, $3, $4, $5 }')" "sheet 44 3 131 175
walks 9 0 0 9
integers 3 1 4 7
plan 2 0 0 2
buffers kept 2 kept 0
all 58 6 135 193"
expect "the gate: the whole" "$(awk '$1 == "all" { print $6 }' "$work/out")" "$(sed -n 's/.* s by the clock, \([0-9]*\) s of the processors: .*/\1/p' "$work/out")"

# edits that are bad, of which rt says that all is well
# told KINDS: what rt says of a run that passed, with these kinds of edits
told() { printf '%s\n' "rt: sheet proved" "rt: must-fail sheet/four.edit: BAD EDIT: it changes nothing" \
  "rt: ok; handles allowed: none; must-fail edits: $1; every proof and must-fail edit was done in this run" "2 passed, 0 failed" >"$work/said"; }
for kinds in "12 refused, 1 bad" "1 refused, 1 of them only by a limit, 10 bad" "0 refused, 2 bad"; do
  told "$kinds"
  ends "the gate, $kinds" 1 gate 0
  expect "the gate, $kinds: the last line" "$(tail -n 1 "$work/out")" "2 passed, 0 failed"
  bad=${kinds##*, }
  holds "the gate, $kinds: told" "$(cat "$work/out")" "gate: FAILED: ${bad% bad} of the must-fail edits are bad"
  ends "the gate, $kinds, and rt fails" 2 gate 2
done
for kinds in "12 refused" "12 refused, 1 of them only by a limit" "12 refused, 0 bad"; do
  told "$kinds"
  ends "the gate, $kinds" 0 gate 0
  expect "the gate, $kinds: the last line" "$(tail -n 1 "$work/out")" "2 passed, 0 failed"
  expect "the gate, $kinds: none is told" "$(grep -c '^gate: ' "$work/out")" 0
done

# where rt ends before its last line there is no table
echo "rt: crates.txt: line 1: expected NAME: DEP DEP ..." >"$work/said"
ends "the gate without a count" 2 gate 2
expect "the gate without a count" "$(cat "$work/out")" "$(cat "$work/said")"

# .ci/run: `rt ci` comes first, in the checkout as it is, and its count is the last line; what fails ends the run
whole=$work/whole
mkdir -p "$whole/tests/outside" "$whole/bindings" "$whole/sheets" "$work/whole-rt"
cp -r .ci "$whole/"
for part in tests/outside/run bindings/test sheets/test; do
  printf '#!/bin/sh\necho "%s here" >>"$CALLED"\necho "%s says so"\n[ "$BREAKS" != %s ]\n' $part $part $part >"$whole/$part"
  chmod +x "$whole/$part"
done
cat >"$work/whole-rt/rt" <<'END'
#!/bin/sh
echo "rt $* in $PWD: $(find . -type f | sort | paste -sd ' ')" >>"$CALLED"
cat "$SAID"
exit "$STATUS"
END
chmod +x "$work/whole-rt/rt"
# whole STATUS PART: the run, where rt ends with the status and the part fails; .ci/run is called from another folder
whole() {
  : >"$work/called"
  (cd / && env CALLED="$work/called" SAID="$work/said" STATUS="$1" BREAKS="$2" PROC="$work/proc" PATH="$work/whole-rt:/usr/bin:/bin" "$whole/.ci/run")
}
# called: the parts that were called, behind rt
called() { sed 1d "$work/called" | paste -sd ' '; }
told "12 refused"
ends "the run" 0 whole 0 none
expect "the run: rt" "$(head -1 "$work/called")" "rt ci in $whole: $(cd "$whole" && find . -type f | sort | paste -sd ' ')"
expect "the run: the others" "$(called)" "tests/outside/run here bindings/test here sheets/test here"
expect "the run: the last lines" "$(tail -n 2 "$work/out")" $'sheets/test says so\n2 passed, 0 failed'
expect "the run: the count, once" "$(grep -c ' passed, ' "$work/out")" 1
holds "the run: the table" "$(cat "$work/out")" "processors, s"
for part in tests/outside/run bindings/test sheets/test; do
  ends "the run, $part fails" 1 whole 0 $part
  expect "the run, $part fails: the last line" "$(tail -n 1 "$work/out")" "$part says so"
done
ends "the run, rt fails" 2 whole 2 none
expect "the run, rt fails: the others" "$(called)" ""
expect "the run, rt fails: the last line" "$(tail -n 1 "$work/out")" "2 passed, 0 failed"
told "12 refused, 1 bad"
ends "the run, an edit is bad" 1 whole 0 none
expect "the run, an edit is bad: the others" "$(called)" ""
expect "the run, an edit is bad: the last line" "$(tail -n 1 "$work/out")" "2 passed, 0 failed"
