# shellcheck shell=bash disable=SC2154,SC2164 # ../tollsalmon sources this
# ./tollsalmon test and bench

# Each part of the second program beside the library.
compare() {
  local part
  say "building the second program"
  cargo_in tests/second build --release --quiet --bins
  say "the second program's own tests"
  cargo_in tests/second test --release --quiet --lib
  for part in compare_tables compare_machine compare_jobs compare_plan compare_text; do
    say "$part: programs with one fault each, which the comparison must notice"
    cargo_in tests/second run --release --quiet --bin "$part" -- --self-test | tail -n 1
    say "$part: the library beside the second program"
    cargo_in tests/second run --release --quiet --bin "$part"
  done
}

plans() {
  say "the plan tool, the safe wrapper and its documentation, and every plan with its text"
  cargo_in tools/plan test --release --quiet
  cargo_in rust test --release --quiet
  RUSTDOCFLAGS="-D warnings" cargo_in rust doc --no-deps --quiet
  plans/make.sh check 9>&-
  build_program
  plans/compare.sh target/bin/run
}

edges() {
  say "the library for C as it is installed, and this script"
  install_files "$room/prefix" ""
  tools/c.sh "$room/prefix" 9>&-
  tests/script.sh 9>&-
}

# Every edit that must fail is refused. rt ci itself passes where one is bad: its text doesn't stand in the file, or what it makes isn't read.
edits_refused() {
  local line bad refused
  local -a edits=(crates/*/must-fail/*.edit)
  line=$(grep '^rt: ok;' "$room/ci") || die 1 "rt ci doesn't say that all is well"
  bad=$(sed -n 's/^.*; must-fail edits: [^;]*, \([0-9]*\) bad;.*$/\1/p' <<<"$line")
  refused=$(sed -n 's/^.*; must-fail edits: \([0-9]*\) refused[,;].*$/\1/p' <<<"$line")
  [[ ${bad:-0} -eq 0 ]] || die 1 "$bad of the ${#edits[@]} edits that must fail are bad: they say nothing of a contract"
  [[ ${refused:-0} -eq ${#edits[@]} ]] || die 1 "rt ci says that ${refused:-0} of the ${#edits[@]} edits that must fail are refused"
}

run_tests() {
  local last start=$SECONDS
  need_kit
  need_rust
  make_room
  cd "$home"
  lock
  tools/reading.sh
  tools/refusals.sh check
  say "proving every crate; the first time takes some minutes"
  rt ci 9>&- | tee "$room/ci" || die 3 "not every crate is proved, or not every edit refused"
  last=$(tail -n 1 "$room/ci")
  edits_refused
  say "every crate is proved and every edit refused ($(so_far "$start"))"
  # What is compared is built after that, whatever was built before.
  rm -rf target/built
  library
  compare
  plans
  edges
  say "everything is compared and tested ($(so_far "$start"))"
  case "$last" in
    *", 0 failed") echo "$last" ;;
    *) die 1 "rt ci did not end with '0 failed'" ;;
  esac
}

bench() {
  local part
  need_kit
  need_rust
  make_room
  cd "$home"
  lock
  library
  static_library "the benchmark's library" pace_c pace
  for part in bench_analysis bench_machine bench_step bench_run; do cargo_in bench run --release --quiet --bin "$part"; done
}
