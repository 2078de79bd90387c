# tools/plan: it builds once, under a lock, and then only runs the tool. `rt` and `cargo` are stand-ins that write down
# each call and its folder; that of `rt` fails where two are at work at once, reads all of its standard input, writes into
# out/ as `rt` does, and works until it is told to go on. Nothing here has a limit in time: what has to come is waited for.

copy=$work/copy
mkdir -p "$copy/tools" "$copy/bindings/rust" "$copy"/crates/exports/{src,specs,must-fail} "$copy/crates/sheet/src" "$work/commands" "$work/elsewhere"
cp tools/plan "$copy/tools/"
cp -r tools/planner "$copy/tools/"
cp -r sheets "$copy/"
# exports names one crate and a library of the kit; below it stand two crates more, one of them named twice. The lines come in any order
cat >"$copy/crates.txt" <<'END'
# NAME: what it needs
exports staticlib: reader io
integers:
reader: integers sheet io # two
sheet: integers
plan: reader io
END
cat >"$work/commands/rt" <<'END'
#!/bin/sh
echo "rt $* in ${PWD##*/}" >>"$CALLS"
cat >/dev/null
mkdir "$CALLS.busy" || exit 1
until [ -e "$CALLS.go" ]; do sleep 0.05; done
rmdir "$CALLS.busy"
mkdir -p out ../sheet/out
echo "$$" >out/libexports.a
echo "$$" >../sheet/out/stamp
[ "$*" != "$FAILS" ] || { echo "rt: sheet is not proved"; exit 1; }
for name in ${PROVES-integers sheet reader exports}; do
  echo "rt: chose --jobs 2 for $name"
  echo "fn $name::first: proved"
  echo "logic=proved functions=1"
done
END
cat >"$work/commands/cargo" <<'END'
#!/bin/sh
echo "cargo $1" >>"$CALLS"
[ "$1" != "$FAILS" ] || { echo "cargo: no such crate"; exit 1; }
[ "$1" = build ] && mkdir -p target/tools/release && cp "$TOOL" target/tools/release/planner
END
chmod +x "$work/commands/rt" "$work/commands/cargo"
export CALLS=$work/calls TOOL=$root/target/tools/release/planner FAILS=nothing
built=$'rt lib --cpu x86-64 in exports\ncargo build'
# as a new user has it: only the stand-ins and the system's commands
set_up() { PATH=$work/commands:/usr/bin:/bin "$@"; }
wanted=$(planner plan sheets/bench.txt)

# twice at once from nothing: two right answers, and each command called once. `rt` goes on once one of the two says that
# it waits, or has ended
(set_up "$copy/tools/plan" sheets/bench.txt >"$work/one" 2>"$work/one.err"; echo $? >>"$work/one") &
one=$!
(set_up "$copy/tools/plan" sheets/bench.txt >"$work/two" 2>"$work/two.err"; echo $? >>"$work/two") &
two=$!
until grep -qs "waiting" "$work/one.err" "$work/two.err" || ! kill -0 $one 2>/dev/null || ! kill -0 $two 2>/dev/null; do sleep 0.05; done
: >"$CALLS.go"
wait $one $two
expect "twice at once: the one" "$(cat "$work/one")" "$wanted"$'\n0'
expect "twice at once: the other" "$(cat "$work/two")" "$wanted"$'\n0'
expect "twice at once: calls" "$(cat "$CALLS")" "$built"
expect "twice at once: one waits" "$(cat "$work/one.err" "$work/two.err" | grep -cx "tools/plan: waiting for another build")" 1
expect "twice at once: how far it is" "$(sed -n 's/^\(crate . of . proved\), [0-9]* s\(: .*\)/\1\2/p' "$work/one.err" "$work/two.err")" \
  $'crate 1 of 4 proved: integers\ncrate 2 of 4 proved: sheet\ncrate 3 of 4 proved: reader\ncrate 4 of 4 proved: exports; building the tool'
expect "twice at once: rt writes into out/" "$(ls "$copy/crates/exports/out" "$copy/crates/sheet/out" | paste -sd ' ')" "$copy/crates/exports/out: libexports.a  $copy/crates/sheet/out: stamp"

# help is there before anything is built
ends "help" 0 env PATH=/usr/bin:/bin "$copy/tools/plan" --help
holds "help" "$(cat "$work/out")" "usage: tools/plan FILE"

# a call of either stand-in is written down
: >"$CALLS"
(cd "$copy/crates/exports" && set_up rt </dev/null >/dev/null)
set_up cargo none || true
expect "the stand-ins leave a mark" "$(cat "$CALLS")" $'rt  in exports\ncargo none'

# and where nothing has changed neither is called, from other folders and through a link too
: >"$CALLS"
ends "up to date" 0 set_up "$copy/tools/plan" sheets/bench.txt
expect "up to date" "$(cat "$work/out")" "$wanted"
expect "up to date: on standard error" "$(cat "$work/err")" ""
expect "up to date: calls" "$(cat "$CALLS")" ""
ln -s "$copy/tools/plan" "$work/elsewhere/link"
for command in "$copy/tools/plan" "$work/elsewhere/link" "../copy/tools/plan" "./link"; do
  cd "$work/elsewhere"
  ends "$command" 0 set_up "$command" "$root/sheets/bench.txt"
  ends "$command on its own folder's file" 4 set_up "$command" none.txt
  cd "$root"
done
expect "up to date: other words" "$(set_up "$copy/tools/plan" sheets/bench.txt --json)" "$(planner plan sheets/bench.txt --json)"
ends "up to date: --build" 0 set_up "$copy/tools/plan" --build
expect "up to date, in whatever way: calls" "$(cat "$CALLS")" ""

# what is newer than the tool, or gone, is built again; a must-fail edit is no part of it, nor what `rt` writes
sleep 0.1
touch "$copy/crates/exports/must-fail/edit"
ends "a must-fail edit" 0 set_up "$copy/tools/plan" sheets/bench.txt
expect "a must-fail edit: calls" "$(cat "$CALLS")" ""
touch "$copy/crates/exports/out/libexports.a" "$copy/crates/exports/out"
rm -r "$copy/crates/sheet/out"
ends "what rt writes" 0 set_up "$copy/tools/plan" sheets/bench.txt
expect "what rt writes: calls" "$(cat "$CALLS")" ""
touch "$copy/tools/planner/src/main.rs"
ends "a newer file" 0 set_up "$copy/tools/plan" sheets/bench.txt
expect "a newer file: calls" "$(cat "$CALLS")" "$built"
: >"$CALLS"
rm "$copy/tools/planner/src/main.rs"
ends "a file that went away" 0 set_up "$copy/tools/plan" sheets/bench.txt
expect "a file that went away: calls" "$(cat "$CALLS")" "$built"
for change in "rmdir specs" "mkdir specs" "touch src/lib.rt" "rm src/lib.rt"; do
  : >"$CALLS"
  sleep 0.1
  (cd "$copy/crates/exports" && $change)
  ends "in a crate, $change" 0 set_up "$copy/tools/plan" sheets/bench.txt
  expect "in a crate, $change: calls" "$(cat "$CALLS")" "$built"
done

# a crate that was proved before is passed over by `rt`; how far it is goes by what the library is made of
touch "$copy/crates.txt"
ends "one crate anew" 0 env PROVES="sheet signs exports" PATH="$work/commands:/usr/bin:/bin" "$copy/tools/plan" sheets/bench.txt
expect "one crate anew: how far it is" "$(sed -n 's/^\(crate . of . proved\), [0-9]* s\(: .*\)/\1\2/p' "$work/err")" \
  $'crate 2 of 4 proved: sheet\ncrate 4 of 4 proved: exports; building the tool'

# from nothing by a folder that is a link, and with CDPATH set
rm -r "$copy/target"
ln -s "$copy/tools" "$work/elsewhere/tools"
: >"$CALLS"
ends "a linked folder" 0 env CDPATH="$work:/" PATH="$work/commands:/usr/bin:/bin" "$work/elsewhere/tools/plan" sheets/bench.txt
expect "a linked folder: calls" "$(cat "$CALLS")" "$built"
ln -s "$copy/crates" "$copy/crates.txt" "$work/elsewhere/"
: >"$CALLS"
ends "a linked folder, up to date" 0 set_up "$work/elsewhere/tools/plan" sheets/bench.txt
expect "a linked folder, up to date: calls" "$(cat "$CALLS")" ""
# a sheet on standard input is not read by what builds
rm -r "$copy/target"
ends "standard input while it builds" 0 set_up "$copy/tools/plan" - <sheets/bench.txt
expect "standard input while it builds" "$(sed 1d "$work/out")" "$(sed 1d <<<"$wanted")"

# a build that fails is told, and tried again the next time
touch "$copy/crates.txt"
for failing in "lib --cpu x86-64" build; do
  case $failing in lib*) said="rt lib" why="rt: sheet is not proved" ;; build) said="cargo build" why="cargo: no such crate" ;; esac
  for turn in first second; do
    ends "a $turn $said that fails" 69 env FAILS="$failing" PATH="$work/commands:/usr/bin:/bin" "$copy/tools/plan" sheets/bench.txt
    holds "a $turn $said that fails" "$(cat "$work/err")" "$why"
    holds "a $turn $said that fails" "$(cat "$work/err")" "tools/plan: $said failed"
    [ ! -s "$work/out" ] || fail "a $turn $said that fails: something on standard output"
  done
done
rm "$work/commands/rt"
ends "no kit" 69 set_up "$copy/tools/plan" sheets/bench.txt
holds "no kit" "$(cat "$work/err")" "tools/plan: 'rt' is needed to build the planner, and is not installed"
