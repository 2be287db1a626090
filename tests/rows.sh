#!/usr/bin/env bash
# Runs the built program over the case files in tests/cases: NAME.in on standard input, NAME.args as its
# words, one a line (none without the file), against NAME.out and the status in NAME.status (0 without it).
# Then over the examples, against tests/examples, and over inputs that are too large to keep as files. It
# also looks whether the pictures of docs are what tools/draw makes.
set -u
cd "$(dirname "$0")/.." || exit 1
program=crates/fkrun/out/fkrun
if [ ! -x "$program" ]; then
  (cd crates/fkrun && rt run </dev/null >/dev/null 2>&1)
fi
if [ ! -x "$program" ]; then
  echo "cases: $program is not built"
  exit 1
fi
passed=0
failed=0
scratch=$(mktemp -d)
trap 'rm -rf "$scratch"' EXIT

# check NAME INPUT OUTPUT STATUS WORD ..: one run of the program against the file OUTPUT
check() {
  local name=$1 input=$2 output=$3 wanted=$4
  shift 4
  "$program" "$@" < "$input" > "$scratch/got"
  local status=$?
  if [ "$status" = "$wanted" ] && cmp -s "$scratch/got" "$output"; then
    passed=$((passed + 1))
  else
    failed=$((failed + 1))
    echo "failed: $name (status $status, wanted $wanted)"
  fi
}

# check_line NAME STATUS LINE: the same for the input in $scratch/input, which gives one line
check_line() {
  echo "$3" > "$scratch/wanted"
  check "$1" "$scratch/input" "$scratch/wanted" "$2"
}

for input in tests/cases/*.in; do
  name=${input%.in}
  words=()
  [ -f "$name.args" ] && mapfile -t words < "$name.args"
  wanted=0
  [ -f "$name.status" ] && wanted=$(cat "$name.status")
  check "${name##*/}" "$input" "$name.out" "$wanted" ${words[@]+"${words[@]}"}
done

for example in examples/*.fk; do
  name=${example##*/}
  check "$example" "$example" "tests/examples/${name%.fk}.out" 0
done

# each picture of docs is the one that tools/draw makes of its example
for picture in first crash watch; do
  tools/draw "examples/$picture.fk" "tests/examples/$picture.out" > "$scratch/got"
  if cmp -s "$scratch/got" "docs/$picture.svg"; then
    passed=$((passed + 1))
  else
    failed=$((failed + 1))
    echo "failed: docs/$picture.svg isn't what tools/draw makes of examples/$picture.fk"
  fi
done

# bytes NUMBER OCTAL: so many bytes of this value
bytes() {
  head -c "$1" /dev/zero | tr '\0' "\\$2"
}

{ bytes 4194303 043; echo; } > "$scratch/input"
check comment-of-4194304-bytes "$scratch/input" tests/cases/empty-file.out 0
{ bytes 4194304 043; echo; } > "$scratch/input"
check_line comment-of-4194305-bytes 65 "bad TooLong"
bytes 4194305 377 > "$scratch/input"
check_line too-many-bytes-that-are-not-utf8 65 "bad TooLong"
{ echo schedule; yes drain | head -n 65536; } > "$scratch/input"
awk 'BEGIN { for (k = 1; k <= 65537; k++) printf "> clock %d\n. clock %d\n", 11 * k, 11 * k }' > "$scratch/wanted"
check turn-65536 "$scratch/input" "$scratch/wanted" 0
echo drain >> "$scratch/input"
check_line turn-65537 65 "bad 65538 TooMany"

echo "cases: $passed passed, $failed failed"
[ "$failed" = 0 ]
