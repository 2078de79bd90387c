# Every wrong description and every wrong sheet with its messages, by `check`, and nothing written by the others.

wrong=0
for file in sheets/wrong/*; do
  wrong=$((wrong + 1))
  case $file in
  *.hex)
    message=$(line message "$file")
    sed 1d "$file" >"$work/wrong.hex"
    ends "$file" 1 planner unhex "$work/wrong.hex"
    expect "$file" "$(cat "$work/err")" "$work/wrong.hex: ${message#standard input: }"
    [ ! -s "$work/out" ] || fail "$file: wrote something"
    # the same as bytes: the number, and the record and the field in words
    tr -d ' \n' <"$work/wrong.hex" | sed 's/../\\x&/g' | { read -r digits || true; printf "$digits"; } >"$work/wrong.sheet"
    [ -s "$work/wrong.sheet" ] || continue
    number=${message#*question } number=${number%%,*}
    ends "$file planned" 1 planner plan "$work/wrong.sheet"
    expect "$file: the head" "$(head -1 "$work/out")" "$work/wrong.sheet: refused $number"
    holds "$file: the words" "$(cat "$work/out")" "${message#*byte *: }"
    expect "$file by the program" "$(crates/plan/out/plan <"$work/wrong.sheet")" "refused $number"
    ;;
  *)
    ends "$file" 3 planner check "$file"
    expect "$file" "$(grep -F "$file:" "$work/err")" "$(line message "$file" | sed "s|^|$file:|")"
    grep -q '^ *| *^' "$work/err" || fail "$file: no caret"
    [ ! -s "$work/out" ] || fail "$file: something on standard output"
    for command in plan encode hex draw; do
      ends "$file by $command" 3 planner $command "$file"
      [ ! -s "$work/out" ] || fail "$file: $command wrote something"
    done
    ;;
  esac
done
[ "$wrong" -gt 80 ] || fail "only $wrong wrong ones"

# runs: malformed ones are mistakes, and what is not allowed is an answer
printf 'loop\nwait 1\n' >"$work/run"
ends "a malformed run" 3 planner replay sheets/bench.txt "$work/run"
expect "a malformed run" "$(head -1 "$work/err")" "$work/run:2: 'wait' is no word of a run; expected nths, delay, edge or loop"
printf 'loop\ndelay 3\nedge finish\n' >"$work/run"
ends "a run that is not allowed" 1 planner replay sheets/bench.txt "$work/run"
expect "a run that is not allowed" "$(head -1 "$work/out")" "$work/run:2: after the delay x = 3; expected x <= 2 in location 'work'"
