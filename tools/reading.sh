#!/usr/bin/env bash
# Whether docs/READING.md lists every file of definitions, once, with its lines.
set -euo pipefail
cd "$(dirname "$0")/.."
good=0
for file in crates/*/specs/*.antt; do
  [[ $(basename "$file") != Lib.antt ]] || continue
  row="| \`$file\` | $(wc -l <"$file") |"
  [[ $(grep -cF "$row" docs/READING.md) -eq 1 ]] || { echo "docs/READING.md wants one row that begins '$row'"; good=1; }
done
exit $good
