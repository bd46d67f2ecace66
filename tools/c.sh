#!/usr/bin/env bash
# The example and the tests in C, built as a user builds: against the installed library, which pkg-config finds.
#
#   tools/c.sh PREFIX          where ./tollsalmon install PREFIX has put it
set -euo pipefail
unset CDPATH
[[ $# -eq 1 ]] || { echo "usage: tools/c.sh PREFIX" >&2; exit 2; }
prefix=$(realpath -- "$1")
export PKG_CONFIG_PATH=$prefix/lib/pkgconfig
cd "$(dirname -- "$0")/.."
for tool in cc g++ nm pkg-config; do
  command -v $tool >/dev/null || { echo "c: '$tool' is missing: on Debian, apt-get install gcc g++ binutils pkg-config" >&2; exit 3; }
done
room=$(mktemp -d)
trap 'rm -rf -- "$room"' EXIT

# What pkg-config says goes through the shell, since a prefix may have spaces.
declare -a library
eval "library=($(pkg-config --cflags --libs tollsalmon))"
strict=(-std=c99 -pedantic -Wall -Wextra -Werror -O2)
checked=(-g "-fsanitize=address,undefined" -fno-sanitize-recover=all)

build() { cc "${strict[@]}" -o "$room/$1" "$2" "${@:3}" "${library[@]}"; }

example() {
  build first examples/first.c
  build first-checked examples/first.c "${checked[@]}"
  g++ -x c++ -Wall -Wextra -Werror -o "$room/first-c++" examples/first.c "${library[@]}"
  for program in first first-checked first-c++; do
    "$room/$program" | diff examples/first.out - || { echo "c: $program prints something else than examples/first.out" >&2; exit 1; }
  done
  echo "c: the example prints what it must, as C, with the sanitizers and as C++"
}

# README's program, as it stands there.
readme() {
  awk '/^```c$/ { inside = 1; next } /^```$/ { inside = 0 } inside' README.md >"$room/readme.c"
  build readme "$room/readme.c"
  [[ $("$room/readme" | tail -n 1) == accepted ]] || { echo "c: README's program doesn't do what README says" >&2; exit 1; }
}

versions() {
  local header wrapper
  header=$(sed -n 's/^#define TOLLSALMON_VERSION "\(.*\)"$/\1/p' include/tollsalmon.h)
  wrapper=$(sed -n 's/^version = "\(.*\)"$/\1/p' rust/Cargo.toml)
  [[ $header == "$wrapper" && $header == "$(pkg-config --modversion tollsalmon)" ]] || {
    echo "c: the header has version '$header', the wrapper '$wrapper', the installed library another" >&2
    exit 1
  }
}

memory() {
  build lent tests/c/lent.c -D_GNU_SOURCE
  "$room/lent"
  build lent-checked tests/c/lent.c -D_GNU_SOURCE "${checked[@]}"
  "$room/lent-checked"
  build stack tests/c/stack.c -D_GNU_SOURCE -pthread
  "$room/stack"
}

words() {
  build words tests/c/words.c
  "$room/words"
}

# Calls from several threads share nothing where the library has nothing to share: no data that can change.
symbols() {
  nm "$prefix/lib/libtollsalmon.a" >"$room/symbols"
  if grep -E '^[0-9a-f]+ [BbCcDdGgSs] ' "$room/symbols"; then
    echo "c: the library has data that can change" >&2
    exit 1
  fi
  sed -n 's/^.* T \(tollsalmon_.*\)$/\1/p' "$room/symbols" | sort >"$room/has"
  sed -n 's/^uint[36][24]_t \(tollsalmon_[a-z]*\)(.*$/\1/p' "$prefix/include/tollsalmon.h" | sort | diff - "$room/has" || {
    echo "c: the header (<) and the library (>) have different functions" >&2
    exit 1
  }
  echo "c: the header's $(wc -l <"$room/has") functions, and no data that can change"
}

example
readme
versions
memory
words
symbols
