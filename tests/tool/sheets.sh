# Every sheet to bytes and back, planned by the program and by the tool; every run replayed.

sheets=0
for file in sheets/*.txt; do
  sheets=$((sheets + 1))
  name=$(basename "$file")
  answer=$(line answer "$file")
  ends "$file encoded" 0 planner encode "$file"
  cp "$work/out" "$work/first"
  ends "$file decoded" 0 planner decode "$work/first"
  cp "$work/out" "$work/text.txt"
  planner encode "$work/text.txt" | cmp -s - "$work/first" || fail "$file: other bytes after decoding"
  found=$(crates/plan/out/plan <"$work/first" | paste -sd '|' | sed 's/|/ | /g')
  expect "$file by the program" "$found" "$answer"
  row=$(grep -F "| [$name]($name) |" sheets/README.md | awk -F ' [|] ' '{print $2}' || true)
  expect "sheets/README.md on $name" "$row" "${answer// | /, }"

  # the description, its bytes and both from standard input have one answer
  case $answer in
  ratio*) status=0 head=planned ;;
  *) status=1 head=$answer ;;
  esac
  ends "$file planned" $status planner plan "$file"
  expect "$file: the head" "$(head -1 "$work/out")" "$file: $head"
  [ ! -s "$work/err" ] || fail "$file: something on standard error"
  case $answer in
  ratio*)
    read -r _ p q _ _ nodes <<<"$answer"
    holds "$file: the ratio" "$(cat "$work/out")" "ratio $p/$q, "
    holds "$file: the nodes" "$(cat "$work/out")" "nodes $(printf "%'d" "$nodes" | sed 's/^\([0-9]\)\([0-9]\{3\}\)$/\1,\2/') of 2,048"
    expect "$file: the undercut" "$(grep -c '^undercut .* (proved)' "$work/out")" 1
    ;;
  esac
  sed 1d "$work/out" >"$work/plan"
  ends "$file from standard input" $status planner plan - <"$file"
  sed 1d "$work/out" | cmp -s - "$work/plan" || fail "$file: another answer from standard input"
  ends "$file in order" 0 planner check "$file"
  holds "$file: checked" "$(cat "$work/out")" "$file: in order: "
  ends "$file as bytes" $status planner plan "$work/first"
  expect "$file as bytes: lines" "$(wc -l <"$work/out")" "$(($(wc -l <"$work/plan") + 1))"
done
[ "$sheets" -gt 20 ] || fail "only $sheets sheets"

# the edition: 2 where there are four clocks or where it is asked for; decoding tells it where it does not follow from the clocks
expect "four clocks: the edition" "$(planner hex sheets/ovens.txt | cut -c 1-6)" 020404
expect "four clocks: checked" "$(planner check sheets/ovens.txt)" "sheets/ovens.txt: in order: 4 locations, 4 clocks, 12 edges; 128 bytes of edition 2"
expect "four clocks: decoded" "$(planner encode sheets/ovens.txt | planner decode | head -1)" "clocks x y z w"
expect "Bench: its bytes" "$(planner hex sheets/bench.txt)" 01010101050100050f000000050002000102
expect "Bench in edition 2: its bytes" "$(planner hex sheets/bench-edition-2.txt)" 02010101050100050f000000050002000102
expect "Bench in edition 2: decoded" "$(planner encode sheets/bench-edition-2.txt | planner decode | head -2)" $'edition 2\nclocks x'
expect "Bench in edition 1: as nothing is asked for" "$({ echo edition 1; cat sheets/bench.txt; } | planner hex -)" "$(planner hex sheets/bench.txt)"
expect "Bench in both editions" "$(planner plan sheets/bench-edition-2.txt | sed 1d)" "$(planner plan sheets/bench.txt | sed 1d)"

runs=0
for file in sheets/runs/*.txt; do
  runs=$((runs + 1))
  ends "$file" 0 planner replay "sheets/$(line sheet "$file")" "$file"
  expect "$file" "$(cat "$work/out")" "$(line answer "$file")"
done
[ "$runs" -gt 10 ] || fail "only $runs runs"

# in nths where the ratio is approached: near it, or the least that serves; a sheet that attains it in nths says so
ends "in tenths" 0 planner plan sheets/beacon.txt --nths 10
holds "in tenths" "$(cat "$work/out")" "approached: the cycle below waits in multiples of 1/10 and has 87/40, exactly 2.175, which is 7/40 more"
ends "too coarse" 1 planner plan sheets/beacon.txt --nths 1 --svg "$work/none.svg"
expect "too coarse" "$(head -1 "$work/out")" "sheets/beacon.txt: refused --nths 1"
holds "too coarse" "$(cat "$work/out")" "--nths 2 is the least that serves (by the tool's own search)"
[ ! -e "$work/none.svg" ] || fail "too coarse: a chart is written"
ends "never" 1 planner plan sheets/never-back.txt --nths 1000
holds "never" "$(cat "$work/out")" "no --nths up to 1000 serves (by the tool's own search)"
ends "corner points" 0 planner plan sheets/never-back.txt
holds "corner points" "$(cat "$work/out")" "not to be worked by: the corner points below are no run: in row 1, at edge 'leave' x = 2; expected x < 2"
sed 's/when x >= 1/when x > 1/; s/^  cost 1$//' sheets/bench.txt >"$work/free.txt"
ends "attained in halves" 0 planner plan "$work/free.txt"
holds "attained in halves" "$(cat "$work/out")" "attained by the cycle below, which waits in multiples of 1/2 and keeps the strict bounds and guards (checked by replay)"

# what a cycle takes, costs and earns, and what that rests on: the answer and the replay where the plan's cycle is shown;
# else the plan's by the answer in a line of its own, and the shown one by replay
# shown_cycle WHAT LINES WORDS..: these lines of the plan, its cycle's head and last line among them
shown_cycle() {
  ends "$1: its cycle" 0 planner plan "${@:3}"
  expect "$1: its cycle" "$(sed -n '/^cycle, \|^the plan.s cycle /p; $p' "$work/out")" "$2"
}
proved=$'cycle, repeating every 1:\n  takes 1, costs 6, earns 2 (proved, and checked by replay)'
shown_cycle "a work plan" "$proved" sheets/bench.txt
shown_cycle "a work plan, in thirds" "$proved" sheets/bench.txt --nths 3
shown_cycle "a run by its corner points" "$proved" sheets/bench-strict-bound.txt
shown_cycle "a run by its corner points, in thirds" "$proved" sheets/bench-strict-bound.txt --nths 3
shown_cycle "corner points" "cycle, repeating every 3:
  takes 3, costs 8, earns 4 (proved, and checked by replay, with each bound and guard taken as one that may be reached)" sheets/beacon.txt
shown_cycle "in tenths" "the plan's cycle of corner points takes 3, costs 8, earns 4 (proved)
cycle, repeating every 16/5:
  takes 16/5, costs 87/10, earns 4 (checked by replay)" sheets/beacon.txt --nths 10
shown_cycle "attained in halves" "the plan's cycle of corner points takes 1, costs 5, earns 2 (proved)
cycle, repeating every 3/2:
  takes 3/2, costs 5, earns 2 (checked by replay)" "$work/free.txt"
holds "a work plan: its cycle, JSON" "$(planner plan sheets/bench.txt --json --nths 3)" '"nodes":7,"cycle":{"units":1,"cost":6,"reward":2},"schedule":{'
holds "corner points: their cycle, JSON" "$(planner plan sheets/beacon.txt --json)" '"cycle":{"units":3,"cost":8,"reward":4},"schedule":{"is":"corners",'
holds "in tenths: the plan's cycle, JSON" "$(planner plan sheets/beacon.txt --json --nths 10)" '"cycle":{"units":3,"cost":8,"reward":4},"schedule":{"is":"near",'

# the run that undercuts the ratio most, in whole units whatever --nths says; where its bound is strict none is known
# breaks_off WHAT LINES WORDS..: the line of the undercut and the run
breaks_off() {
  ends "$1" 0 planner plan "${@:3}"
  expect "$1" "$(sed -n '/^undercut /p; /^run, broken off:/,$p' "$work/out")" "$2"
}
most="wherever a run breaks off, it costs at most so much less than the ratio times its reward (proved)"
sampled="undercut 9: $most; the run broken off below costs exactly so much less (checked by replay)
run, broken off:
  at  wait  in           then        cost  reward
   0     2  measuring    sample         5       6
   2     2  measuring    sample         5       6
   4     2  measuring    sample         5       6
  takes 6, costs 15, earns 18: 9 less than the ratio times its reward (checked by replay)"
breaks_off "a run that breaks off" "$sampled" sheets/sampler.txt
breaks_off "a run that breaks off, in halves" "$sampled" sheets/sampler.txt --nths 2
sed 's/^  cost 1$/  reward 1/; s/x <= 2/x < 2/' sheets/bench.txt >"$work/short.txt"
unknown="no run in whole units costs exactly so much less (by the tool's own search), and whether one in nths does is not known"
breaks_off "no run that breaks off" "undercut 5/2, exactly 2.5: $most; $unknown" "$work/short.txt"
holds "a run that breaks off, JSON" "$(planner plan sheets/sampler.txt --json)" '"undercut":{"p":9,"q":1,"about":9.0000,"run":{"time":6,"cost":15,"reward":18,"rows":[{'
holds "nothing undercut, JSON" "$(planner plan sheets/bench.txt --json)" '"undercut":{"p":0,"q":1,"about":0.0000,"run":null}}'

# the loop of 14 where its corner points are no run
cat >"$work/gain.txt" <<'END'
clocks x
location a
  cost -1
  x < 2
edge idle: a -> a
  when x > 1
  reset x
  cost 1
edge work: a -> a
  reset x
  reward 1
END
ends "a loop that is no run" 1 planner plan "$work/gain.txt"
holds "a loop that is no run" "$(cat "$work/out")" "its corner points are no run, and runs may only come near: in row 1, after the delay x = 2; expected x < 2 in location 'a'"
holds "a loop that is no run, JSON" "$(planner plan "$work/gain.txt" --json || true)" '"loop":{"is":"corners",'
holds "a loop that is a run, JSON" "$(planner plan sheets/feed-in.txt --json || true)" '"loop":{"is":"run",'
holds "a loop that is no run: its basis" "$(planner plan "$work/gain.txt" || true)" "costs -1, earns 0 (checked by replay, with each bound and guard taken as one that may be reached)"
holds "corner points: their basis" "$(planner plan sheets/beacon.txt)" "costs 2, earns 0 (checked by replay, with each bound and guard taken as one that may be reached)"
holds "too coarse, JSON" "$(planner plan sheets/beacon.txt --nths 1 --json || true)" '"answer":"no run","nths":1,"least_nths":2}'
holds "a run by its corner points, in thirds" "$(planner plan sheets/bench-strict-bound.txt --nths 3 --json)" '"nths":3,'
holds "a work plan, in thirds" "$(planner plan sheets/bench.txt --nths 3 --json)" '"nths":3,'
