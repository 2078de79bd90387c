# Status 70: the tool linked with a library that lies tells the difference and prints no schedule.

lying=$work/lying
mkdir -p "$lying/bindings" "$lying/tools" "$lying/crates/exports/out"
cp -r bindings/rust "$lying/bindings/"
cp -r tools/planner "$lying/tools/"
for call in plan work check step; do
  echo "planner_$call true_planner_$call"
done >"$lying/names"
objcopy --redefine-syms="$lying/names" crates/exports/out/libexports.a "$lying/crates/exports/out/libexports.a"
cc -O1 -c -o "$lying/lies.o" tests/tool/lies.c
ar r "$lying/crates/exports/out/libexports.a" "$lying/lies.o" 2>/dev/null
cargo build -q --offline --manifest-path "$lying/tools/planner/Cargo.toml" --target-dir "$work/built" || fail "the lying tool is not built"
liar=$work/built/debug/planner

ends "no lie" 0 "$liar" plan sheets/bench.txt
expect "no lie" "$(cat "$work/out")" "$(planner plan sheets/bench.txt)"
# lie NAME SHEET WHAT: told on standard error, and nothing printed
lie() {
  ends "$1" 70 env LIE="$1" "$liar" plan "$2"
  holds "$1" "$(cat "$work/err")" "$3"
  [ ! -s "$work/out" ] || fail "$1: something on standard output"
}
lie ratio sheets/bench.txt "the cycle costs 6 and earns 2, and the ratio is 4/1"
lie step sheets/bench.txt "of the lasso at node"
lie nodes sheets/production.txt "is not among the nodes of the plan"
lie move sheets/bench.txt "the cycle of the lasso takes 3, costs 6, earns 2, and the library answers that it takes 1, costs 6, earns 2"
lie move sheets/feed-in.txt "of the schedule: after the delay"
lie units sheets/bench.txt "the cycle of the lasso takes 1, costs 6, earns 2, and the library answers that it takes 2, costs 6, earns 2"
lie reduced sheets/bench.txt "the cycle of the lasso takes 1, costs 6, earns 2, and the library answers that it takes 1, costs 3, earns 2"
lie earned sheets/bench.txt "the cycle of the lasso takes 1, costs 6, earns 2, and the library answers that it takes 1, costs 6, earns 1"
lie wait sheets/bench.txt "the cycle of the schedule takes 2, costs 7, earns 2, and the library answers that it takes 1, costs 6, earns 2"
lie twice sheets/bench.txt "the cycle of the schedule takes 2, costs 12, earns 4, and the library answers that it takes 1, costs 6, earns 2"
lie strict sheets/bench.txt "of the work plan the library answers"
lie check sheets/one-way.txt "the library answers refused 5"
lie number sheets/bench.txt "the plan is refused with 14, and the tool's own search finds no loop without reward that costs less than 0"
lie price sheets/bench.txt "and the ratio is 3/1"
lie smallest sheets/production.txt "no run in whole units comes to the smallest potential -565"
lie smallest sheets/sampler.txt "no walk comes to the smallest potential -28"
lie potentials sheets/bench.txt "the run that breaks off takes 0, costs 0, earns 0, and the smallest potential is -1"
ends "a sound sheet refused" 70 env LIE=sound "$liar" check sheets/bench.txt
holds "a sound sheet refused" "$(cat "$work/err")" "the library answers refused 8"
printf '\1\1\1\0\4' >"$work/short.sheet"
ends "another number" 70 env LIE=sound "$liar" plan "$work/short.sheet"
holds "another number" "$(cat "$work/err")" "and the tool question 5"
ends "a lie in a batch" 70 env LIE=ratio "$liar" batch sheets/bench.txt sheets/one-way.txt
expect "a lie in a batch" "$(sed 's/.*"answer":"\([a-z]*\)".*/\1/' "$work/out" | paste -sd ' ')" "difference refused"
