# Files and streams that cannot be read or written, and unusual ones that can.

ends "no such file" 4 planner plan "$work/none.txt"
holds "no such file" "$(cat "$work/err")" "$work/none.txt: cannot be read: No such file"
ends "a folder" 4 planner plan sheets
holds "a folder" "$(cat "$work/err")" "sheets: cannot be read: Is a directory"
ends "an empty input" 3 planner plan - </dev/null
holds "an empty input" "$(cat "$work/err")" "standard input:1: the description ends without clocks"

# a full disk, as standard output and as a file
ends "a full disk" 4 bash -c 'planner plan sheets/bench.txt >/dev/full'
expect "a full disk" "$(cat "$work/err")" "standard output: cannot be written: No space left on device (os error 28)"
ends "a full disk, batch" 4 bash -c 'planner batch sheets >/dev/full'
for option in --svg --certificate; do
  ends "no such folder, $option" 4 planner plan sheets/bench.txt $option "$work/none/file"
  holds "no such folder, $option" "$(cat "$work/err")" "$work/none/file: cannot be written: No such file or directory"
  [ ! -s "$work/out" ] || fail "no such folder, $option: something on standard output"
  # where there is no room, what stood there stays, through a link too
  echo before >"$work/kept"
  ln -sf kept "$work/link"
  for name in kept link; do
    ends "no room, $option $name" 4 bash -c "trap '' XFSZ; ulimit -f 0; planner plan sheets/bench.txt $option '$work/$name' | cat"'; exit ${PIPESTATUS[0]}'
    expect "no room, $option $name" "$(cat "$work/kept")" before
    expect "no room, $option $name: files left" "$(ls -A "$work" | grep -c part || true)" 0
  done
  # a pipe is written to as it is; it is open both ways meanwhile, so that nobody waits for the other end
  mkfifo "$work/pipe"
  exec 8<>"$work/pipe"
  ends "a pipe, $option" 0 planner plan sheets/bench.txt $option "$work/pipe"
  [ -p "$work/pipe" ] || fail "a pipe, $option: it is none any more"
  exec 9<"$work/pipe" 8>&-
  cat <&9 >"$work/piped"
  exec 9<&-
  planner plan sheets/bench.txt $option "$work/plain" >/dev/null
  cmp -s "$work/plain" "$work/piped" || fail "a pipe, $option: other bytes"
  rm "$work/pipe"
done
ends "a refused sheet" 1 planner plan sheets/one-way.txt --svg "$work/none.svg" --certificate "$work/none.cert"
[ ! -e "$work/none.svg" ] && [ ! -e "$work/none.cert" ] || fail "a refused sheet: files written"
expect "a refused sheet: told" "$(cat "$work/err")" "$work/none.svg: not written"$'\n'"$work/none.cert: not written"

# a standard output that is not open for writing, and a pipe by its descriptor
ends "no output" 4 bash -c 'planner plan sheets/bench.txt 1</dev/null'
ends "no output, batch" 4 bash -c 'planner batch sheets 1</dev/null'
planner plan sheets/bench.txt --certificate "$work/plain" >/dev/null
# opened by the shell itself, so that it knows the reader and can wait for it
ends "a pipe by its descriptor" 0 bash -c "exec 9> >(cat >'$work/piped'); planner plan sheets/bench.txt --certificate /proc/self/fd/9; status=\$?; exec 9>&-; wait \$!; exit \$status"
cmp -s "$work/plain" "$work/piped" || fail "a pipe by its descriptor: other bytes"

# a closed pipe ends the tool quietly; the reader has gone when the tool begins
for command in "plan sheets/bench.txt" "batch sheets"; do
  ends "a closed pipe, $command" 4 bash -c "exec 9> >(true); wait \$!; planner $command >&9"
  expect "a closed pipe, $command" "$(cat "$work/err")" ""
done

# more than 1 MB is refused before it is read whole
ends "a long input" 4 bash -c 'yes "# a comment" | head -c 3000000 | planner plan -'
expect "a long input" "$(cat "$work/err")" "standard input: is longer than 1 MB, and was not read further"
ends "an endless input" 4 bash -c 'planner check - </dev/zero'
# nor is more waited for: the pipe stays open until the tool has ended
mkfifo "$work/open"
exec 8<>"$work/open"
head -c 1000001 /dev/zero >"$work/open" 8>&- &
ends "a long input that stays open" 4 planner check - <"$work/open"
expect "a long input that stays open" "$(cat "$work/err")" "standard input: is longer than 1 MB, and was not read further"
exec 8>&-
wait
head -c 1000000 /dev/zero | tr '\0' '#' >"$work/comment.txt"
ends "1 MB" 3 planner check "$work/comment.txt"

# other encodings and line ends
{ printf '\xef\xbb\xbf'; sed 's/$/\r/' sheets/bench.txt; } >"$work/dos.txt"
ends "a byte order mark and CR LF" 0 planner encode "$work/dos.txt"
planner encode sheets/bench.txt | cmp -s - "$work/out" || fail "a byte order mark and CR LF: other bytes"
tr '\n' '\r' <sheets/bench.txt >"$work/mac.txt"
ends "CR alone" 0 planner encode "$work/mac.txt"
planner encode sheets/bench.txt | cmp -s - "$work/out" || fail "CR alone: other bytes"
{ printf '\xff\xfe'; sed 's/./&\x00/g; s/$/\x00/' sheets/bench.txt; } >"$work/utf16.txt"
ends "UTF-16" 3 planner plan "$work/utf16.txt"
holds "UTF-16" "$(cat "$work/err")" "UTF-16"
printf '# t\xfcr\nclocks x\n' >"$work/latin.txt"
ends "Latin-1" 3 planner plan "$work/latin.txt"
holds "Latin-1" "$(cat "$work/err")" "Latin-1"
grep -q '^ *|    ^$' "$work/err" || fail "Latin-1: no caret"
printf '# t\xfcr\nclocks x\n\x1a' >"$work/latin.txt"
ends "Latin-1 with a control character" 3 planner plan "$work/latin.txt"
holds "Latin-1 with a control character" "$(cat "$work/err")" "Latin-1"
{ cat sheets/bench.txt; printf '\x1a'; } >"$work/ctrl-z.txt"
ends "a control character" 3 planner check "$work/ctrl-z.txt"
holds "a control character" "$(cat "$work/err")" "$work/ctrl-z.txt:$(($(wc -l <sheets/bench.txt) + 1)): the character U+001A"
planner hex sheets/bench.txt >"$work/digits"
ends "hexadecimal digits" 3 planner plan "$work/digits"
holds "hexadecimal digits" "$(cat "$work/err")" "did you mean 'planner unhex'?"
ends "a description decoded" 3 planner decode sheets/bench.txt
holds "a description decoded" "$(cat "$work/err")" "sheets/bench.txt:1: the file is a text; expected the bytes of a sheet"
ends "a name with escapes" 4 planner plan $'\e[31mnone\u202e'
! grep -q $'\e\|\u202e' "$work/err" || fail "a name with escapes: they are printed"
ends "a word with escapes" 2 planner $'\e[31m'
! grep -q $'\e' "$work/err" || fail "a word with escapes: they are printed"
