# The examples of the documents: each block that begins with "$ " is run, and has to print what stands behind it.

stage=$work/stage
mkdir "$stage"
ln -s "$root"/{sheets,tools,docs,crates,bindings,crates.txt,target} "$stage/"

# examples FILE: each command of the file and what it is said to print, as NUMBER.command and NUMBER.printed
examples() {
  rm -rf "$work/examples"
  mkdir "$work/examples"
  awk -v to="$work/examples/" '
    /^```/ { inside = !inside; first = inside; running = 0; next }
    first { running = /^\$ /; first = 0 }
    running && inside && /^\$ / { n++; print substr($0, 3) >(to n ".command"); printf "" >(to n ".printed"); next }
    running && inside { print >(to n ".printed") }
  ' "$1"
}

run=0
for file in README.md sheets/README.md tools/planner/README.md docs/*.md; do
  examples "$file"
  for example in "$work"/examples/*.command; do
    [ -e "$example" ] || continue
    run=$((run + 1))
    found=$(cd "$stage" && bash "$example" 2>&1) || true
    expect "$file: $(cat "$example")" "$found" "$(cat "${example%.command}.printed")"
  done
done
[ "$run" -gt 5 ] || fail "only $run examples in the documents"

# Bench as bytes of both editions and as a description, the number of one of its nodes, and the whole sheet of the guide
for name in bench bench-edition-2; do
  grep -qx "$(planner hex sheets/$name.txt)" docs/SHEET.md || fail "docs/SHEET.md: other bytes of $name"
  planner plan sheets/$name.txt --certificate "$work/cert" >/dev/null
  numbers+=("$(sed -n '/^nodes /,/^stem /s/^  \([0-9]*\) 2  # location 0, clocks at 2$/\1/p' "$work/cert" | head -1)")
done
holds "docs/SHEET.md: a node of Bench" "$(cat docs/SHEET.md)" "has the number ${numbers[0]} in edition 1 and ${numbers[1]} in edition 2"
sed -n '/^clocks x$/,/^```$/p' README.md | sed '$d' >"$work/readme.txt"
expect "README.md: the description of Bench" "$(planner hex "$work/readme.txt")" "$(planner hex sheets/bench.txt)"

holds "README.md: a mistake" "$(cat README.md)" "\`$(planner check sheets/wrong/unknown-target.txt 2>&1 | head -1)\`"

# whole FILE NAME: the block behind "The whole sheet is [NAME]" is the file without its comments at the head
whole() {
  awk -v mark="The whole sheet is [$2]" 'index($0, mark) { found = 1 } found && /^```/ { if (inside) exit; inside = 1; next } inside' "$1" >"$work/block"
  [ -s "$work/block" ] || fail "$1: no block behind 'The whole sheet is [$2]'"
  sed '/^[^#]/,$!d' "sheets/$2" | cmp -s - "$work/block" || fail "$1: another sheet than $2"
}
whole sheets/README.md finds.txt

# the example of the format is a sheet
awk '/^## The format/ { found = 1 } found && /^```/ { if (inside) exit; inside = 1; next } inside' sheets/README.md >"$work/format.txt"
ends "sheets/README.md: the format" 0 planner check "$work/format.txt"
holds "sheets/README.md: the format" "$(cat "$work/out")" "1 location, 1 clock, 1 edge"

# each file of a crate that a document names is there, and what it names in it: `crate/specs/File.antt: name, name`
named=0
while IFS= read -r citation; do
  named=$((named + 1))
  file=crates/${citation%%: *}
  [ -e "$file" ] || { fail "the documents name $file, which is not there"; continue; }
  [ "$citation" != "${citation%%: *}" ] || continue
  IFS=, read -ra names <<<"${citation#*: }"
  for name in "${names[@]}"; do
    grep -qE "(^|[^[:alnum:]_·-])${name# }([^[:alnum:]_·-]|$)" "$file" || fail "the documents name ${name# } in $file, which has none"
  done
done < <(cat README.md docs/*.md | grep -oE '`[a-z_]+/(specs|proofs|src|must-fail)/[A-Za-z0-9_/.]+(: [^`]+)?`' | tr -d '`' | sort -u)
checks=$((checks + named))
[ "$named" -gt 100 ] || fail "only $named names of the crates in the documents"
