#!/usr/bin/env bash
# What ./tollsalmon does with words, paths, pipes, full disks and a machine that lacks something. Everything is done to copies of the
# repository in a temporary folder whose name has spaces, with a stand-in for rt, so that nothing here proves or removes anything.
#
#   tests/script.sh            the repository's script; the program and the library must be built (./tollsalmon test does that before)
#   tests/script.sh SCRIPT     another script, put in its place
set -uo pipefail
unset CDPATH TOLLSALMON_LOCKED DESTDIR
umask 022
repo=$(readlink -f -- "${BASH_SOURCE[0]}")
repo=${repo%/tests/*}
script=$(readlink -f -- "${1-$repo/tollsalmon}")
checks=0 failed=0 status=0 nothing=/dev/null

for built in bin/run staticlib/libtollsalmon.a; do
  [[ -e $repo/target/$built ]] || { echo "script: target/$built isn't built" >&2; exit 3; }
done
room=$(mktemp -d) || exit 4
trap 'rm -rf -- "$room"' EXIT
chmod 711 "$room"
mkdir -m 1777 "$room/tmp"
export TMPDIR=$room/tmp

# A command's status, output and words, for the check that follows. What hangs is ended.
try() {
  status=0
  timeout 100 "$@" >"$room/out" 2>"$room/err" || status=$?
}

fail() {
  failed=$((failed + 1))
  echo "script: FAILED: $1:$2 ($(head -c 300 "$room/err" | tr -c '[:print:]' ' '))"
}

# What was tried: a name, its status, the file that its output equals (or 'any'), and each text that its words have; none: it has no words.
expect() {
  local name=$1 wanted=$2 output=$3 text wrong=
  shift 3
  checks=$((checks + 1))
  [[ $status -eq $wanted ]] || wrong+=" status $status in place of $wanted;"
  [[ $output == any ]] || cmp -s "$output" "$room/out" || wrong+=" another output;"
  [[ $# -gt 0 || ! -s $room/err ]] || wrong+=" words where none belong;"
  for text; do
    grep -qF -- "$text" "$room/err" || wrong+=" it doesn't say \"$text\";"
  done
  [[ -z $wrong ]] || fail "$name" "$wrong"
}

# Something else that must hold.
holds() {
  local name=$1
  shift
  checks=$((checks + 1))
  "$@" || fail "$name" " it isn't so"
}

# A copy of the repository as it is built, with the script that is tried.
stage() {
  local part
  mkdir -p "$1/target"
  tar -C "$repo" --exclude=./.git --exclude=./target --exclude='./crates/*/out' -cf - . | tar -C "$1" -xf -
  for part in bin built staticlib; do cp -a "$repo/target/$part" "$1/target/"; done
  cp "$script" "$1/tollsalmon"
}

# A stand-in for rt: notes where and how it was called, and does what the file 'rt-does' in the room says.
stand_in() {
  mkdir "$room/stand-in"
  cat >"$room/stand-in/rt" <<T
#!/usr/bin/env bash
call="\${PWD##*/}: \$*"
echo "\$call" >>"$room/rt-calls"
. "$room/rt-does" "\$@"
T
  chmod 755 "$room/stand-in/rt"
  echo 'exit 1' >"$room/rt-does"
  : >"$room/rt-calls"
  PATH=$room/stand-in:$PATH
}

not_called() { [[ ! -s $room/rt-calls ]]; }

wrong_words() {
  local at="$room/wrong words" words line
  stage "$at"
  : >"$room/rt-calls"
  for words in "test extra --help" "test --help" "test extra" "bench x" "help x" "--help x" "-h x" "nonsense" "run" "make" "show" "install" \
    "run a b" "make a b" "show a b" "install a b" "install --help" "--version"; do
    read -ra line <<<"$words"
    try "$at/tollsalmon" "${line[@]}"
    expect "wrong words: $words" 2 $nothing "./tollsalmon run FILE"
  done
  try "$at/tollsalmon" ""
  expect "an empty word" 2 $nothing "./tollsalmon run FILE"
  try "$at/.ci/run" extra
  expect ".ci/run with a word" 2 $nothing "./tollsalmon run FILE"
  holds "wrong words leave target/ alone" test -x "$at/target/bin/run"
  holds "wrong words start no proof" not_called
}

help() {
  "$at/tollsalmon" help >"$room/page"
  holds "the page says how it ends" grep -q '^  4  the output could not be written' "$room/page"
  try "$at/tollsalmon"
  expect "no word" 0 "$room/page"
  try "$at/tollsalmon" -h
  expect "-h" 0 "$room/page"
  try "$at/tollsalmon" --help
  expect "--help" 0 "$room/page"
}

paths() {
  local odd="$room/a folder"$'\n'"of two lines"
  mkdir "$odd"
  cp "$example.plan" "$odd/my plan"
  cp "$example.plan" "$odd/-p"
  cd "$odd" || exit
  try "$at/tollsalmon" run "my plan"
  expect "a path with spaces" 0 "$example.out"
  try "$at/tollsalmon" run "$odd/my plan"
  expect "a path with a line feed" 0 "$example.out"
  try "$at/tollsalmon" run -p
  expect "a name that begins with -" 0 "$example.out"
  try "$at/tollsalmon" run - <"$example.plan"
  expect "- for standard input" 0 "$example.out"
  try "$at/tollsalmon" run - < <(cat "$example.plan")
  expect "- for a pipe" 0 "$example.out"
  try "$at/tollsalmon" run - <&-
  expect "a closed standard input" 2 $nothing "standard input is closed"
  try "$at/tollsalmon" run /dev/stdin <"$example.plan"
  expect "/dev/stdin" 0 "$example.out"
  try "$at/tollsalmon" run /dev/stdin < <(cat "$example.plan")
  expect "/dev/stdin of a pipe" 0 "$example.out"
  try "$at/tollsalmon" run <(cat "$example.plan")
  expect "a pipe that the shell names" 0 "$example.out"
  mkfifo fifo
  cat "$example.plan" >fifo &
  try "$at/tollsalmon" run fifo
  expect "a named pipe" 0 "$example.out"
  kill $! 2>/dev/null
  wait
}

no_such_file() {
  cd "$room" || exit
  try "$at/tollsalmon" run "no such plan"
  expect "no such file" 2 $nothing "there is no file 'no such plan'"
  try "$at/tollsalmon" run ""
  expect "an empty name" 2 $nothing "there is no file ''"
  try "$at/tollsalmon" run "$at"
  expect "a directory" 2 $nothing "is a directory"
  try "$at/tollsalmon" make $'\e[31m'
  expect "a name that a terminal would obey" 2 $nothing 'there is no file' '\E[31m'
  cp "$example.plan" shut.plan
  chmod 000 shut.plan
  try "${as_nobody[@]}" "$at/tollsalmon" run shut.plan
  expect "a file that can't be read" 2 $nothing "'shut.plan' can't be read"
  try "${as_nobody[@]}" "$at/tollsalmon" run "$example.plan"
  expect "a repository that can't be written" 0 "$example.out"
}

links() {
  local new=$'new\nline'
  mkdir "$room/bin" "$room/away"
  ln -s "$at/tollsalmon" "$room/bin/tollsalmon"
  ln -s tollsalmon "$room/bin/again"
  ln -s ../bin/again "$room/away/far"
  cd "$room/away" || exit
  cp "$example.plan" mine.plan
  try "$room/bin/tollsalmon" run mine.plan
  expect "a link" 0 "$example.out"
  try "$room/bin/again" run mine.plan
  expect "a link to a link" 0 "$example.out"
  try ./far run mine.plan
  expect "a relative link" 0 "$example.out"
  PATH=$room/bin:$PATH try tollsalmon run mine.plan
  expect "a link found through PATH" 0 "$example.out"
  PATH=../bin:$PATH try again run mine.plan
  expect "a link found through a relative PATH" 0 "$example.out"
  stage "$room/$new"
  ln -s "../$new/tollsalmon" "$room/bin/odd"
  try ../bin/odd run mine.plan
  expect "a link to a repository whose path has a line feed" 0 "$example.out"
}

cdpath() {
  mkdir -p "$room/decoy/tools/plan" "$room/decoy/plans"
  cd "$at" || exit
  CDPATH=.:$room/decoy try ./tollsalmon run plans/example.plan
  expect "run with CDPATH exported" 0 "$example.out"
  CDPATH=. try ./tollsalmon make plans/example.txt
  expect "make with CDPATH exported" 0 "$example.plan"
  CDPATH=$room/decoy try ./tollsalmon show plans/example.plan
  expect "show with CDPATH exported" 0 any
  cd "$room" || exit
  CDPATH=$room try "${at##*/}/tollsalmon" run "$example.plan"
  expect "the script by a relative path with CDPATH exported" 0 "$example.out"
}

# Every plan beside its text: a refused one ends with 1 and has words, every other ends with 0 and has none.
every_plan() {
  local text
  for text in "$at"/plans/*.out; do
    try "$at/tollsalmon" run "${text%.out}.plan"
    if [[ $(head -c 6 "$text") == REFUSE ]]; then
      expect "${text##*/}" 1 "$text" "tollsalmon: refusal" "tollsalmon: what to do:"
    else
      expect "${text##*/}" 0 "$text"
    fi
  done
}

refusals() {
  try "$at/tollsalmon" run "$at/plans/refused-table.plan"
  expect "a refused table in words" 1 any "tollsalmon: refusal 7, task 1: the guest can't have its ticks before its enforcement instant" \
    "what to do: shorten this C, " ", or lengthen this D (with its T)"
  echo "REFUSE 19 2" >"$room/hypertask.out"
  try "$at/tollsalmon" run "$at/plans/refused-hypertask.plan"
  expect "a table refused for a hypertask, in words" 1 "$room/hypertask.out" \
    "tollsalmon: refusal 19, task 2: after the task's own hypertask the guest can't have its ticks within the period" \
    "what to do: shorten this K, " ", or lengthen this T"
  try "$at/tollsalmon" run "$at/plans/damaged-record.plan"
  expect "a damaged record in words" 1 any "refusal 17, record 5 (from 0): an early mark above 1"
  echo "REFUSE 13 0" >"$room/empty.out"
  try "$at/tollsalmon" run $nothing
  expect "an empty file" 1 "$room/empty.out" "refusal 13, a length of 0: the file is shorter than 4"
  echo "REFUSE 13 65537" >"$room/endless.out"
  try "$at/tollsalmon" run /dev/zero
  expect "a file without an end" 1 "$room/endless.out" "refusal 13, a length of 65537"
  echo "REFUSE 14 0" >"$room/count.out"
  try "$at/tollsalmon" run <(printf '\001\001\001\001')
  expect "a count that is neither 1 nor 2" 1 "$room/count.out" "refusal 14, entry 0"
  try bash -c 'exec "$@" 2>&-' - "$at/tollsalmon" run "$at/plans/refused-table.plan"
  expect "a closed standard error" 1 "$at/plans/refused-table.out"
}

text_plans() {
  try "$at/tollsalmon" run "$example.txt"
  expect "a plan written as text" 0 "$example.out"
  try "$at/tollsalmon" run - <"$at/plans/refused-table.txt"
  expect "a refused table written as text" 1 "$at/plans/refused-table.out" "refusal 7, task 1" "read as a plan written as text"
  try "$at/tollsalmon" run "$at/plans/refused-hypertask.txt"
  expect "a table refused for a hypertask, written as text" 1 "$at/plans/refused-hypertask.out" "refusal 19, task 2" "written as text"
  printf 'rows\n10 8 3\n' >"$room/nonsense.txt"
  try "$at/tollsalmon" run "$room/nonsense.txt"
  expect "nonsense written as text" 1 $nothing "line 2" "was read as a plan written as text"
  try "$at/tollsalmon" make "$room/nonsense.txt"
  expect "make of nonsense" 1 $nothing "line 2"
  try "$at/tollsalmon" make "$example.plan"
  expect "make of a plan file" 1 $nothing "is no text"
  try "$at/tollsalmon" show "$example.txt"
  expect "show of text" 1 $nothing "is text already"
  try "$at/tollsalmon" show "$at/plans/damaged.plan"
  expect "show of a damaged plan" 1 $nothing "15"
  try "$at/tollsalmon" show - <"$example.plan"
  cp "$room/out" "$room/shown.txt"
  try "$at/tollsalmon" make - <"$room/shown.txt"
  expect "what show says, made again" 0 "$example.plan"
}

# What a text has is never sent to a terminal as it is, and never at any length.
echoes() {
  printf 'rows\n\033[31m\007 8 3 2\n' >"$room/escapes.txt"
  try "$at/tollsalmon" make "$room/escapes.txt"
  expect "escapes in a text" 1 $nothing "line 2"
  holds "escapes are written out" printable
  { printf 'rows\n' && head -c 70000 /dev/zero; } >"$room/zeros.txt"
  try "$at/tollsalmon" make "$room/zeros.txt"
  expect "70,000 bytes of 0 in a text" 1 $nothing "line 2"
  holds "bytes of 0 are written out, and not all of them" printable
  printf '\357\273\277rows\n10 8 3 2\n' >"$room/mark.txt"
  try "$at/tollsalmon" make "$room/mark.txt"
  expect "a byte order mark" 1 $nothing "byte order mark"
  printf 'rows\n10 8 3 2\nticks\nt2 - -\n' >"$room/stranger.txt"
  try "$at/tollsalmon" make "$room/stranger.txt"
  expect "t2 in a plan of one row is told" 0 any "line 4"
}

printable() { [[ $(wc -c <"$room/err") -lt 1000 && $(LC_ALL=C tr -cd '\000-\011\013-\037\177' <"$room/err" | wc -c) -eq 0 ]]; }

# On a disk that is full from the start, on one that takes a kilobyte, and where nobody listens.
full_disk() {
  local word file
  for word in help run make show; do
    file=("$example.plan")
    [[ $word != make ]] || file=("$example.txt")
    [[ $word != help ]] || file=()
    try bash -c 'exec "$@" >/dev/full' - "$at/tollsalmon" "$word" "${file[@]}"
    expect "$word on a full disk" 4 $nothing "the output could not be written: No space left on device"
    try bash -c 'exec "$@" >&-' - "$at/tollsalmon" "$word" "${file[@]}"
    expect "$word with a closed output" 4 $nothing "standard output is closed"
  done
  try bash -c 'exec "$@" >/dev/full' - "$at/tollsalmon" run "$at/plans/refused-table.plan"
  expect "a refused table on a full disk" 4 $nothing "No space left on device"
  try bash -c 'ulimit -f 1 && exec "$@"' - "$at/tollsalmon" run "$long"
  expect "where only a kilobyte can be written" 4 $nothing "no room for temporary files"
}

closed_pipe() {
  echo "ACCEPT 32" >"$room/first.out"
  try bash -c 'set -o pipefail; "$@" | head -n 1' - "$at/tollsalmon" run "$long"
  expect "a pipe that is closed after a line" 4 "$room/first.out"
  try bash -c 'set -o pipefail; trap "" PIPE; "$@" | head -n 1' - "$at/tollsalmon" run "$long"
  expect "the same where the signal is ignored" 4 "$room/first.out"
}

# rt as it proves crates, two of which are as they were, and builds the program or the library; what it does besides is given.
proving() {
  cat >"$room/rt-does" <<T
case "\$call" in
  "one: lib" | "export: lib") printf '%s\n' "crate \${PWD##*/}: modules loaded=3 checked=5" "logic=proved functions=1" ;;
  "two: lib") printf '%s\n' "crate two: modules loaded=8 checked=0" "logic=proved functions=1" ;;
  "three: lib") ;;
  "run: run")
    echo "statements core: modules loaded=222 checked=0"
    $1
    mkdir -p out
    cp "$at/target/bin/run" out/run
    echo "logic=proved functions=1" ;;
  "export_c: lib")
    mkdir -p out
    cp "$at/target/staticlib/libtollsalmon.a" out/libexport_c.a
    echo "logic=proved functions=9" ;;
  *) exit 2 ;;
esac
T
}

says_nothing_of() { ! grep -qF -- "$1" "$room/err"; }

first_use() {
  stage "$room/first use"
  cd "$room/first use" || exit
  rm -rf target
  mkdir crates/one crates/two crates/three
  printf '%s\n' "run: three io # the program" "three: two" "two: one" "one:" "other: two" "export_c staticlib: export" "export: two one" >crates.txt
  proving "echo 'a note of the compiler'"
  try ./tollsalmon run "$example.plan"
  expect "first use" 0 "$example.out" "proving and building the run program" "proved 1 of 4: one (" "proved 4 of 4: run (" " s so far)"
  holds "what is as it was is not shown" says_nothing_of two
  holds "nor is a library that was there" says_nothing_of three
  : >"$room/rt-calls"
  try ./tollsalmon run "$example.plan"
  expect "second use" 0 "$example.out"
  holds "second use proves nothing" not_called
  touch crates/least/src/lib.rt
  proving "touch ../least/specs/Lib.antt"
  try ./tollsalmon run "$example.plan"
  expect "a changed source is proved" 0 "$example.out" "proved 4 of 4: run"
  : >"$room/rt-calls"
  try ./tollsalmon run "$example.plan"
  holds "a source that changed during the proof is proved again" test -s "$room/rt-calls"
  rm -rf target
  proving "echo 'fn run::main: no proof'; exit 1"
  try ./tollsalmon run "$example.plan"
  expect "what isn't proved" 3 $nothing "fn run::main: no proof" "the run program is not proved"
  holds "what the prover says of its own library is not shown" says_nothing_of statements
}

# The library again: its copy changes only where its bytes do, or cargo would build everything again.
library() {
  cd "$room/first use" || exit
  proving :
  try ./tollsalmon install "$room/first prefix"
  expect "first use of the library" 0 $nothing "proving and building the library" "proved 1 of 4: one (" "proved 3 of 4: export (" \
    "proved 4 of 4: export_c ("
  touch -d 2001-01-01 target/staticlib/libtollsalmon.a
  touch crates/least/src/lib.rt
  try ./tollsalmon install "$room/first prefix"
  expect "a changed source proves the library again" 0 $nothing "proved 4 of 4: export_c ("
  holds "the library is not written again for nothing" test crates.txt -nt target/staticlib/libtollsalmon.a
  echo changed >target/staticlib/libtollsalmon.a
  try ./tollsalmon install "$room/first prefix"
  holds "the library is always the proved one" cmp -s "$at/target/staticlib/libtollsalmon.a" "$room/first prefix/lib/libtollsalmon.a"
}

# A machine that has only what is named here.
missing() {
  local tool
  mkdir "$room/few"
  for tool in bash env readlink mktemp rm head tr wc cat awk find mkdir touch tail tee mv cmp cp dirname; do
    ln -s "$(command -v "$tool")" "$room/few/$tool"
  done
  try env PATH="$room/few" bash "$at/tollsalmon" run "$example.plan"
  expect "no rt, no cargo and no flock, and all is built" 0 "$example.out"
  try env PATH="$room/few" bash "$at/tollsalmon" make "$example.txt"
  expect "no cargo" 3 $nothing "'cargo' is missing"
  stage "$room/bare"
  rm -rf "$room/bare/target"
  try env PATH="$room/few" bash "$room/bare/tollsalmon" run "$example.plan"
  expect "no rt" 3 $nothing "'rt' is missing: it comes with the Rattle kit"
}

# Tries something in the background while the lock is held, until it says that it waits (or ends).
while_locked() {
  rm -f "$room/ended" "$room/err"
  exec 8>>"$room/lock/.lock"
  flock 8
  { timeout 100 "$@" >"$room/out" 2>"$room/err"; echo $? >"$room/ended"; } 8>&- &
  until grep -qs 'waiting for it' "$room/err" || [[ -e $room/ended ]]; do sleep 0.05; done
}

release() {
  exec 8>&-
  wait
  status=$(cat "$room/ended")
}

locks() {
  command -v flock >/dev/null || return
  stage "$room/lock"
  while_locked "$room/lock/tollsalmon" run "$example.plan"
  holds "run waits for the lock" test ! -e "$room/ended"
  release
  expect "run goes on after it" 0 "$example.out" "another ./tollsalmon is at work in this repository: waiting for it"
  while_locked env TOLLSALMON_LOCKED="$room/lock" "$room/lock/tollsalmon" run "$example.plan"
  holds "a script whose caller has the lock doesn't wait" test -e "$room/ended"
  release
  expect "and runs" 0 "$example.out"
  proving "sleep 100 >/dev/null 2>&1 & echo \$! >'$room/left'"
  echo "run:" >"$room/lock/crates.txt"
  try "$room/lock/tollsalmon" run "$example.plan"
  try "$room/lock/tollsalmon" run "$example.plan"
  expect "what a tool leaves behind doesn't hold the lock" 0 "$example.out"
  kill "$(cat "$room/left")"
  echo 'echo "0 passed, 1 failed"; exit 1' >"$room/rt-does"
  : >"$room/rt-calls"
  while_locked "$room/lock/tollsalmon" test
  holds "test waits for the lock" not_called
  holds "and leaves what is built alone until then" test -e "$room/lock/target/built/run"
  release
  expect "test goes on after it, and says what isn't proved" 3 any "waiting for it" "not every crate is proved"
}

# What the gate makes of what rt ci says where it passes.
gate() {
  local -a edits
  stage "$room/gate"
  edits=("$room/gate"/crates/*/must-fail/*.edit)
  rt_ci_says "must-fail edits: $((${#edits[@]} - 1)) refused, 1 bad; every proof and must-fail edit was done in this run"
  try "$room/gate/.ci/run"
  expect "an edit that is bad fails the gate" 1 any "1 of the ${#edits[@]} edits that must fail are bad"
  rt_ci_says "must-fail edits: $((${#edits[@]} - 3)) refused, 2 of them only by a limit, 3 bad; done in this run: 1 of the 2 proofs"
  try "$room/gate/.ci/run"
  expect "and so do three" 1 any "3 of the ${#edits[@]} edits that must fail are bad"
  rt_ci_says "must-fail edits: $((${#edits[@]} - 1)) refused; every proof and must-fail edit was done in this run"
  try "$room/gate/.ci/run"
  expect "an edit that rt ci doesn't count fails the gate" 1 any "$((${#edits[@]} - 1)) of the ${#edits[@]} edits that must fail are refused"
  echo 'echo "9 passed, 0 failed"' >"$room/rt-does"
  try "$room/gate/.ci/run"
  expect "so does rt ci without its word that all is well" 1 any "rt ci doesn't say that all is well"
  : >"$room/rt-calls"
  try "$room/gate/.ci/run"
  holds "rt ci is called at the top of the checkout, with no names" grep -qx "gate: ci" "$room/rt-calls"
}

rt_ci_says() { printf 'printf "%%s\n" "rt: ok; handles allowed: none; %s" "9 passed, 0 failed"\n' "$1" >"$room/rt-does"; }

installed() {
  local file
  for file in lib/libtollsalmon.a include/tollsalmon.h lib/pkgconfig/tollsalmon.pc; do
    [[ $(stat -c %a "$1/$file") == 644 ]] || return
  done
}

# A program of C as its maker would build it: what pkg-config says goes through the shell, since a path may have spaces.
through_pkg_config() {
  local flags
  export PKG_CONFIG_PATH=$1/lib/pkgconfig
  flags=$(pkg-config --cflags --libs tollsalmon) || return
  eval "cc -o '$room/first' '$at/examples/first.c' $flags"
}

installs() {
  local prefix="$room/a prefix" below=$room/package$room/real
  cd "$room" || exit
  try bash -c 'umask 077 && exec "$@"' - "$at/tollsalmon" install "a prefix"
  expect "install into a path with spaces, from where the caller stands" 0 $nothing "installed '$prefix/lib/libtollsalmon.a'"
  holds "three files of mode 644" installed "$prefix"
  holds "a program of C, through pkg-config" through_pkg_config "$prefix"
  try "$room/first"
  expect "it runs" 0 "$at/examples/first.out"
  try env PKG_CONFIG_PATH="$prefix/lib/pkgconfig" pkg-config --modversion tollsalmon
  holds "its version is the header's" grep -qF "#define TOLLSALMON_VERSION \"$(cat "$room/out")\"" "$prefix/include/tollsalmon.h"
  DESTDIR=$room/package try "$at/tollsalmon" install "$room/real"
  expect "install below DESTDIR" 0 $nothing "installed '$below/lib/libtollsalmon.a'"
  holds "the prefix is without DESTDIR" grep -qx "prefix=$room/real" "$below/lib/pkgconfig/tollsalmon.pc"
  : >"$room/a file"
  try "$at/tollsalmon" install "$room/a file/below"
  expect "install where nothing can be written" 4 $nothing "could not be written"
  try "$at/tollsalmon" install 'a"b'
  expect "install into a name that pkg-config can't hold" 2 $nothing "can't hold the name"
}

# Stopped while it waits for its input, it takes its temporary folder with it.
stopped() {
  mkfifo "$room/silent"
  exec 8<>"$room/silent"
  "$at/tollsalmon" run "$room/silent" 8>&- &
  until [[ -n $(ls -A "$TMPDIR") ]] || ! kill -0 $!; do sleep 0.05; done
  kill $!
  wait $!
  exec 8>&-
}

at="$room/a b c"
example=$at/plans/example
long=$room/long.plan
stage "$at"
stand_in
as_nobody=()
[[ $(id -u) != 0 ]] || as_nobody=(setpriv --reuid=65534 --regid=65534 --clear-groups)
{ sed '/^ticks/q' "$at/plans/full-table.txt" && echo "- - - x8000"; } >"$room/long.txt"
"$at/tollsalmon" make "$room/long.txt" >"$long" 2>/dev/null
for part in wrong_words help paths no_such_file links cdpath every_plan refusals text_plans echoes full_disk closed_pipe first_use library \
  missing installs locks gate stopped; do
  "$part"
done
holds "no temporary file is left" test -z "$(ls -A "$TMPDIR")"
echo "script: $checks checks, $failed failed"
[[ $failed -eq 0 ]]
