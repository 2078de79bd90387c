# Charts and drawings: written, well formed, with each edge of the cycle.

for file in sheets/*.txt; do
  case $(line answer "$file") in refused*) continue ;; esac
  ends "$file charted" 0 planner plan "$file" --svg "$work/chart.svg"
  expect "$file: the last line" "$(tail -1 "$work/out")" "chart: $work/chart.svg"
  for edge in $(sed -n '/^cycle,/,/^$/p' "$work/out" | awk 'NF == 6 && $1 != "at" { print $4 }'); do
    grep -q ">$edge\\(<\\|:\\| \\)" "$work/chart.svg" || fail "$file: edge $edge is not in its chart"
  done
  for location in $(sed -n 's/^location //p' "$file"); do
    grep -q ">$location<" "$work/chart.svg" || fail "$file: no lane for $location"
  done
  expect "$file: one picture" "$(grep -c '<svg ' "$work/chart.svg")" 1
  expect "$file: the chart ends" "$(tail -c 7 "$work/chart.svg")" "</svg>"
done

# the picture of the README is that of the tool
planner plan sheets/production.txt --svg "$work/chart.svg" >/dev/null
cmp -s "$work/chart.svg" docs/production.svg || fail "docs/production.svg: another picture; planner plan sheets/production.txt --svg docs/production.svg"

ends "drawn" 0 planner draw sheets/production.txt
holds "drawn" "$(head -1 "$work/out")" "digraph"
for name in $(sed -n 's/^edge \([^:]*\):.*/\1/p; s/^location //p' sheets/production.txt); do
  grep -q "$name" "$work/out" || fail "drawn: $name is missing"
done
# the cycle is in bold; of a refused sheet nothing is
cycle=$(planner plan sheets/production.txt | sed -n '/^cycle,/,/^$/p' | awk 'NF == 6 && $1 != "at" { print $4 }')
for edge in $cycle; do
  grep -q "label=\"$edge\\\\n.*penwidth=2.5" "$work/out" || fail "drawn: $edge is not in bold"
done
expect "drawn: edges in bold" "$(grep -c ' -> .*penwidth=2.5' "$work/out")" "$(echo $cycle | wc -w)"
ends "a refused sheet drawn" 0 planner draw sheets/one-way.txt
! grep -q penwidth "$work/out" || fail "a refused sheet drawn: something in bold"

# without Graphviz, and with a stand-in for it
mkdir -p "$work/no-dot" "$work/dot"
ends "no dot" 4 env PATH="$work/no-dot" "$root/target/tools/release/planner" draw sheets/bench.txt --svg "$work/drawn.svg"
holds "no dot" "$(cat "$work/err")" "Graphviz"
[ ! -e "$work/drawn.svg" ] || fail "no dot: something written"
printf '#!/bin/sh\n[ "$1" = -Tsvg ] || exit 9\necho "<svg>"; cat; echo "</svg>"\n' >"$work/dot/dot"
chmod +x "$work/dot/dot"
ends "a dot" 0 env PATH="$work/dot:$PATH" planner draw sheets/bench.txt --svg "$work/drawn.svg"
expect "a dot" "$(sed '1d;$d' "$work/drawn.svg")" "$(planner draw sheets/bench.txt)"
printf '#!/bin/sh\necho "no luck" >&2; exit 1\n' >"$work/dot/dot"
ends "a failing dot" 4 env PATH="$work/dot:$PATH" planner draw sheets/bench.txt --svg "$work/other.svg"
holds "a failing dot" "$(cat "$work/err")" "no luck"
[ ! -e "$work/other.svg" ] || fail "a failing dot: something written"
