# shellcheck shell=bash disable=SC2154,SC2164 # ../tollsalmon sources this
# What ../tollsalmon proves and builds, and the lock that keeps two of it apart. Everything here runs in the repository's folder.

# What a machine with the kit may lack, and where it comes from.
need() { command -v "$1" >/dev/null 2>&1 || die 3 "'$1' is missing: $2"; }

need_kit() { need rt "it comes with the Rattle kit"; }

need_rust() {
  need cargo "Rust 1.82 or newer: apt-get install cargo where Debian has it, or rustup"
  need cc "on Debian: apt-get install gcc"
}

# 'test' sets aside what is built and builds it again, so nobody else may build or use it meanwhile. A script that this one calls has the lock by it.
# What is started under the lock doesn't inherit it (9>&-), so that nothing it leaves behind holds it.
lock() {
  [[ ${TOLLSALMON_LOCKED-} != "$home" ]] || return 0
  command -v flock >/dev/null 2>&1 || return 0
  { exec 9>>.lock || exec 9<.lock; } 2>/dev/null || return 0
  flock -n 9 || {
    say "another ./tollsalmon is at work in this repository: waiting for it"
    flock 9 || return 0
  }
  export TOLLSALMON_LOCKED=$home
  locked=yes
}

unlock() {
  [[ -n ${locked-} ]] || return 0
  exec 9>&-
  unset TOLLSALMON_LOCKED locked
}

cargo_in() {
  local folder=$1
  shift
  (cd "$folder" && cargo "$@") 9>&-
}

# A crate of this repository and those that it stands on, lowest first: a name a line.
crates_for() {
  awk -v crate="$1" '
    function visit(name, names, count, i) {
      if (!(name in needs) || seen[name]++) return
      count = split(needs[name], names, " ")
      for (i = 1; i <= count; i++) visit(names[i])
      print name
    }
    { sub(/#.*/, "") }
    split($0, sides, ":") == 2 { split(sides[1], words, " "); needs[words[1]] = sides[2] }
    END { visit(crate) }' crates.txt
}

# The time since a start.
so_far() {
  local seconds=$((SECONDS - $1))
  [[ $seconds -lt 60 ]] || printf '%d min ' $((seconds / 60))
  printf '%d s so far' $((seconds % 60))
}

# What the prover says of a crate's text; what it says of the proved libraries below tells nobody anything.
not_proved() {
  grep -vE '^(statements|library|crate|axioms|logic) ' "$room/log" | tail -n 20 >&2 || :
  die 3 "$1 is not proved"
}

# Whether the crate was really proved, not found as it was: rt says how much of its proof it checked.
was_proved() { grep -q '^logic=proved' "$room/log" && ! grep -q "^crate $1: .* checked=0\$" "$room/log"; }

# Proves and builds a crate and what it stands on, lowest first, each in its folder: what rt makes lies in crates/CRATE/out/. A line for the
# crate itself and for each other that is really proved, none for those that are as they were.
prove() {
  local what=$1 top=$2 word=$3 crate count=0
  local -a crates
  mapfile -t crates < <(crates_for "$top")
  for crate in "${crates[@]}"; do
    count=$((count + 1))
    if [[ $crate == "$top" ]]; then
      rt_in "$crate" "$word" || not_proved "$what"
    else
      rt_in "$crate" lib || not_proved "$what"
      was_proved "$crate" || continue
    fi
    say "proved $count of ${#crates[@]}: $crate ($(so_far "$began"))"
  done
}

# rt in a crate's folder. 'rt run' also runs the program that it has built: on nothing, for nobody.
rt_in() { (cd "crates/$1" && rt "$2" </dev/null) >"$room/log" 2>&1 9>&-; }

# Whether a file was built from the sources as they stand: its mark has the time at which that build began.
built() { [[ -e $2 && -e target/built/$1 && -z $(find crates.txt crates/*/src crates/*/specs crates/*/proofs -newer "target/built/$1" -print -quit) ]]; }

begin_mark() {
  began=$SECONDS
  { mkdir -p target/built && touch "target/built/$1.new"; } || die 3 "target/ can't be written"
}

end_mark() { mv "target/built/$1.new" "target/built/$1"; }

# What rt has built, in its place in target/. It changes only where its bytes do, so that cargo builds nothing again for nothing.
place() {
  { mkdir -p "${2%/*}" && { cmp -s "$1" "$2" || { cp "$1" "$2.new" && mv "$2.new" "$2"; }; }; } || die 3 "target/ can't be written"
}

# The run program, proved and linked; a change of any source proves again what it touches.
build_program() {
  local what="the run program"
  ! built run target/bin/run || return 0
  need_kit
  say "proving and building $what; the first time takes some minutes"
  begin_mark run
  prove "$what" run run
  place crates/run/out/run target/bin/run
  end_mark run
}

# The crate that hands a library to C, and that library under its own name in target/staticlib/, always as it was proved.
static_library() {
  local what=$1 crate=$2 name=$3 proved=target/built/lib$2.a
  built "$crate" "$proved" || {
    need_kit
    say "proving and building $what; the first time takes some minutes"
    begin_mark "$crate"
    prove "$what" "$crate" lib
    place "crates/$crate/out/lib$crate.a" "$proved"
    end_mark "$crate"
  }
  place "$proved" "target/staticlib/lib$name.a"
}

library() { static_library "the library" export_c tollsalmon; }

# The tool for plans as text.
build_tool() {
  need_rust
  library
  [[ -x target/tools/release/plan ]] || say "building the plan tool"
  cargo_in tools/plan build --release --quiet || die 3 "the plan tool can't be built"
}
