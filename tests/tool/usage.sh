# Help, the version, and wrong usage.

ends "no word" 2 planner
[ ! -s "$work/out" ] || fail "no word: something on standard output"
for option in --help -h --version; do
  ends "$option" 0 planner $option
  [ -s "$work/out" ] && [ ! -s "$work/err" ] || fail "$option: not on standard output"
done
holds "--version" "$(planner --version)" "reads sheets of editions 1 and 2"
for command in plan check verify replay draw batch encode decode hex unhex; do
  ends "$command --help" 0 planner $command --help
  holds "$command --help" "$(head -1 "$work/out")" "usage: planner $command "
  holds "the list" "$(planner --help)" "  planner $command "
  ends "$command with an unknown option" 2 planner $command --strange
  holds "$command" "$(head -1 "$work/err")" "planner $command: there is no option --strange"
  [ ! -s "$work/out" ] || fail "$command with an unknown option: something on standard output"
done
for status in 0 1 2 3 4 70; do
  grep -q "^  $status  *[a-z]" <(planner --help) || fail "--help lacks status $status"
done

# misused WORDS.. MESSAGE: status 2 and this first line on standard error
misused() {
  local words=("${@:1:$#-1}")
  ends "${words[*]}" 2 planner "${words[@]}"
  expect "${words[*]}" "$(head -1 "$work/err")" "${!#}"
  [ ! -s "$work/out" ] || fail "${words[*]}: something on standard output"
}
bench=sheets/bench.txt
misused pln "planner: 'pln' is no command; expected one of: plan, check, verify, replay, draw, batch, encode, decode, hex, unhex"
misused plan "planner plan: a file is missing"
misused verify $bench "planner verify: a file is missing"
misused plan $bench $bench "planner plan: '$bench' is one file too many"
misused plan $bench --nths "planner plan: --nths needs a value, N"
misused plan $bench --nths 0 "planner plan: --nths takes a whole number from 1 to 1000, and not '0'"
misused plan $bench --nths=1001 "planner plan: --nths takes a whole number from 1 to 1000, and not '1001'"
misused plan $bench --nths ten "planner plan: --nths takes a whole number from 1 to 1000, and not 'ten'"
misused plan $bench --json --json "planner plan: --json is given twice"
misused plan $bench --json=1 "planner plan: --json takes no value"
misused plan $bench --svg - "planner plan: --svg needs the name of a file"
misused batch sheets --jobs 0 "planner batch: --jobs takes a whole number from 1 to 256, and not '0'"
misused --version extra "planner: '--version' is no command; expected one of: plan, check, verify, replay, draw, batch, encode, decode, hex, unhex"
misused plan $bench --svg "$work/x" --certificate "$work/x" "planner plan: --svg and --certificate would write the same file"
misused plan $bench --svg "$work/x" --certificate "$work/./x" "planner plan: --svg and --certificate would write the same file"
ln -s x "$work/to-x"
misused plan $bench --svg "$work/x" --certificate "$work/to-x" "planner plan: --svg and --certificate would write the same file"
: >"$work/y"
ln "$work/y" "$work/z"
misused plan $bench --svg "$work/y" --certificate "$work/z" "planner plan: --svg and --certificate would write the same file"
misused verify - - "planner verify: standard input can be read only once"
ends "a name that is no UTF-8" 0 planner plan $bench --svg="$work/"$'caf\xe9.svg'
[ -e "$work/"$'caf\xe9.svg' ] || fail "a name that is no UTF-8: nothing is written"
ends "the finest nths" 0 planner plan sheets/beacon.txt --nths 1000
ends "the most jobs" 0 planner batch $bench --jobs 256
cp $bench "$work/kept.txt"
misused plan "$work/kept.txt" --svg "$work/kept.txt" "planner plan: --svg would write over $work/kept.txt, which is read"
ln "$work/kept.txt" "$work/same.txt"
misused plan "$work/kept.txt" --svg "$work/same.txt" "planner plan: --svg would write over $work/kept.txt, which is read"
ends "standard input written over" 2 planner plan - --svg "$work/kept.txt" <"$work/kept.txt"
cmp -s $bench "$work/kept.txt" || fail "--svg wrote over the sheet"
ends "a file named like an option" 4 planner plan -- --json
holds "a file named like an option" "$(cat "$work/err")" "--json: cannot be read: "
