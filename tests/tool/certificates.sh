# Certificates: those of every planned sheet are verified, and one with each kind of fault is refused for its reason.

certified=0
for file in sheets/*.txt; do
  case $(line answer "$file") in refused*) continue ;; esac
  certified=$((certified + 1))
  ends "$file certified" 0 planner plan "$file" --certificate "$work/cert"
  expect "$file: the last line" "$(tail -1 "$work/out")" "certificate: $work/cert"
  ends "$file verified" 0 planner verify "$file" "$work/cert"
  holds "$file verified" "$(cat "$work/out")" "$work/cert: verified: "
  planner encode "$file" >"$work/first"
  ends "$file verified as bytes" 0 planner verify "$work/first" "$work/cert"
done
[ "$certified" -gt 10 ] || fail "only $certified certificates"

# planted RULE SHEET EDIT: the certificate of Bench, edited so, is refused by this rule
planner plan sheets/bench.txt --certificate "$work/bench.cert" >/dev/null
planted() {
  sed "$3" "$work/bench.cert" >"$work/cert"
  ! cmp -s "$work/cert" "$work/bench.cert" || [ "$1" = same-sheet ] || fail "$1: the edit changes nothing"
  ends "$1" 1 planner verify "$2" "$work/cert"
  holds "$1" "$(cat "$work/out")" "$work/cert: refused: $1: "
}
bench=sheets/bench.txt
planted same-sheet sheets/bench-gain.txt ''
planted nodes-rise $bench 's/^  4 1 /  6 1 /; s/^  5 0 /  4 0 /'
planted nodes-of-sheet $bench 's/^  32 2 /  33 2 /'
planted nodes-of-sheet $bench 's/^nodes 7/nodes 8/; s/^stem /  4294967316 2\n&/'
planted start-listed $bench '/^  0 0 /d; s/^nodes 7/nodes 6/'
planted successors-listed $bench '/^  32 2 /d; s/^nodes 7/nodes 6/'
planted ratio-range $bench 's/^ratio 3 1/ratio 3 0/'
planted lowest-terms $bench 's/^ratio 3 1/ratio 6 2/'
planted stem-allowed $bench 's/^stem 0/stem 1\n  0/'
planted cycle-allowed $bench 's/^  33 32 33 0$/  32 33 33 0/'
planted cycle-closes $bench 's/^cycle 4/cycle 3/; s/^  33 32 33 0$/  33 32 33/'
planted lasso-length $bench 's/^cycle 4/cycle 0/; s/^  33 32 33 0$//'
planted cycle-has-ratio $bench 's/^ratio 3 1/ratio 2 1/'
planted potentials-hold $bench 's/^  32 2 /  32 3 /'
planted potential-range $bench 's/^  32 2 /  32 1000000000000000 /'

# the version is the edition of the sheet, by which node numbers are laid out
expect "edition 1: its version" "$(head -1 "$work/bench.cert")" "planner certificate 1"
planner plan sheets/ovens.txt --certificate "$work/ovens.cert" >/dev/null
expect "edition 2: its version" "$(head -1 "$work/ovens.cert")" "planner certificate 2"
holds "edition 2: its last node" "$(cat "$work/ovens.cert")" $'\n  6981427264 87  # location 3, clocks at 1 1 2 4\nstem '
sed '1s/2/1/' "$work/ovens.cert" >"$work/cert"
ends "the version of another edition" 3 planner verify sheets/ovens.txt "$work/cert"
expect "the version of another edition" "$(head -1 "$work/err")" "$work/cert:1: certificate version 1 of a sheet of edition 2; expected version 2"

# a text that is no certificate is a mistake, with its line
sed 's/^nodes 7/nodes 8/' "$work/bench.cert" >"$work/cert"
ends "a wrong count" 3 planner verify $bench "$work/cert"
holds "a wrong count" "$(cat "$work/err")" "$work/cert:17: "
ends "another text" 3 planner verify $bench $bench
holds "another text" "$(cat "$work/err")" "$bench:1: "
ends "no text" 3 planner verify $bench "$work/first"
ends "no certificate" 4 planner verify $bench "$work/none"
