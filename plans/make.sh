#!/usr/bin/env bash
# Makes every NAME.plan from NAME.txt with the tool, and every NAME.out from NAME.plan with the
# second program. Both link libtollsalmon.a: the one in target/staticlib, or in the folder that
# TOLLSALMON_LIB names.
#
#   plans/make.sh          makes them all again
#   plans/make.sh check    says whether those that stand here are what would be made
set -euo pipefail
unset CDPATH
word=${1:-make}
[[ $# -le 1 && ($word == make || $word == check) ]] || { echo "usage: plans/make.sh [check]" >&2; exit 2; }
cd "$(dirname "$0")"

plan=../target/tools/release/plan
second=../target/second/release/second

build() {
  (cd ../tools/plan && cargo build --release --quiet)
  (cd ../tests/second && cargo build --release --quiet --bin second)
}

# Makes a damaged file of a sound one, for the plans whose story that is.
damage() {
  case "$1" in
    damaged) truncate -s -5 "$2" ;; # the last 5 bytes are lost
    damaged-record) printf '\002' | dd of="$2" bs=1 seek=89 conv=notrunc status=none ;; # an early mark of 2
  esac
}

# The plan of a text. A warning may be what a plan is about, so what the tool says is shown only where it fails.
plan_of_text() {
  local words
  { words=$("$plan" make 2>&1 >&3); } 3>&1 || { echo "$words" >&2; return 1; }
}

# All of them into a folder, so that nothing here changes where one can't be made.
make_into() {
  local text name
  for text in *.txt; do
    name=${text%.txt}
    plan_of_text <"$text" >"$1/$name.plan" || { echo "plans: $text can't be made" >&2; return 1; }
    "$plan" show <"$1/$name.plan" | plan_of_text | cmp - "$1/$name.plan"
    damage "$name" "$1/$name.plan"
    "$second" <"$1/$name.plan" >"$1/$name.out"
  done
}

# Every file of either folder stands in the other one, and is the same there.
check() {
  local file bad=0
  for file in *.plan *.out "$1"/*; do
    file=${file##*/}
    cmp "$file" "$1/$file" || bad=1
  done
  return $bad
}

made=$(mktemp -d)
trap 'rm -rf "$made"' EXIT
build
make_into "$made"
case "$word" in
  make) cp "$made"/* . && echo "plans: $(ls ./*.txt | wc -l) made, with their texts" ;;
  check) check "$made" && echo "plans: $(ls ./*.txt | wc -l) plans and their texts are what they should be" ;;
esac
