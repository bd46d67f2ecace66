#!/usr/bin/env bash
# The refusals' words stand once, in include/refusals.txt: this puts them into include/tollsalmon.h and README.md.
#
#   tools/refusals.sh          writes them
#   tools/refusals.sh check    says whether they stand there as they would be written
#
# Both say whether numbers and names are those of crates/refusals.
set -euo pipefail
unset CDPATH
cd "$(dirname "$0")/.."

for_c() {
  awk -F'|' '
    /^#/ { next }
    { name = $2; gsub(/[A-Z]/, "_&", name); numbers[++n] = $1; names[n] = "TOLLSALMON" toupper(name); words[n] = $4 }
    END {
      print "enum tollsalmon_refusal {"
      print "    TOLLSALMON_ACCEPTED = 0,"
      for (i = 1; i <= n; i++) printf "    %s = %d%s\n", names[i], numbers[i], i < n ? "," : ""
      print "};\n"
      print "/* What a number means, in a few words. */"
      print "static inline const char *tollsalmon_words(uint32_t number)\n{\n    switch (number) {"
      print "    case TOLLSALMON_ACCEPTED: return \"accepted\";"
      for (i = 1; i <= n; i++) printf "    case %s: return \"%s\";\n", names[i], words[i]
      print "    default: return \"no such refusal\";\n    }\n}"
    }' include/refusals.txt
}

for_readme() {
  printf '| No. | Name | What it means | The place | What to do |\n|---|---|---|---|---|\n'
  awk -F'|' '/^#/ { next } { place = $3; sub(/\{\}/, "N", place); printf "| %s | %s | %s | %s | %s |\n", $1, $2, $4, place ? place : "0", $5 }' \
    include/refusals.txt
}

# Number and name of each refusal: as the crate gives them, and as the file has them.
in_the_crate() { sed -n 's/^ *Refusal::\([A-Za-z]*\)(_) => \([0-9]*\),$/\2 \1/p' crates/refusals/src/lib.rt; }
in_the_file() { awk -F'|' '!/^#/ { print $1, $2 }' include/refusals.txt; }

same_names() {
  [[ -n $(in_the_crate) ]] || { echo "refusals: none found in crates/refusals/src/lib.rt" >&2; wrong=1; }
  diff <(in_the_crate) <(in_the_file) >&2 || { echo "refusals: include/refusals.txt doesn't name what crates/refusals does" >&2; wrong=1; }
}

# A file with what stands between its two marks put in anew.
with() {
  awk -v begin="$2" -v end="$3" -v part="$4" '
    $0 == end { print part; kept = 0 }
    !kept
    $0 == begin { kept = 1 }' "$1"
}

put() {
  local file=$1 made
  made=$(mktemp)
  with "$@" >"$made"
  if [[ $word == write ]]; then
    cat "$made" >"$file"
  elif ! cmp -s "$made" "$file"; then
    echo "refusals: $file is not what include/refusals.txt says: run tools/refusals.sh" >&2
    wrong=1
  fi
  rm -f "$made"
}

word=${1:-write}
[[ $# -le 1 && ($word == write || $word == check) ]] || { echo "usage: tools/refusals.sh [check]" >&2; exit 2; }
wrong=0
same_names
put include/tollsalmon.h "/* from refusals.txt: */" "/* end of refusals.txt */" "$(for_c)"
put README.md "<!-- from include/refusals.txt: -->" "<!-- end of include/refusals.txt -->" "$(for_readme)"
exit $wrong
