# What the runners of tests/runners in this language share, read by `.`: $top, $program, and the functions below.
top=$(cd "$(dirname "${BASH_SOURCE[0]}")/../.." && pwd) || exit 1
program=${PROGRAM:-$top/crates/grpcc/out/grpcc}
part=${1:-}
room=$(mktemp -d) || exit 1
trap 'rm -rf "$room"' EXIT
got=$room/got
wanted=$room/wanted
passed=0
failed=0
asked=0
names=()

# Whether there is a program to try.
is_built() { [ -x "$program" ]; }

# Whether the test of this name is to run.
asks_for() {
  names+=("$1")
  if [ "$part" = --list ]; then
    echo "$1"
    return 1
  fi
  case $1 in *"$part"*) asked=$((asked + 1)) ;; *) return 1 ;; esac
}

# A line of a file for a message, in part where it is long.
line_of() {
  local line
  [ "$2" -gt "$(awk 'END { print NR }' "$1")" ] && echo "no such line" && return
  line=$(sed -n "$2p" "$1" | tr -d '\0')
  [ "${#line}" -gt 300 ] && line="${line:0:150}..${line: -75} (${#line} characters)"
  echo "'$line'"
}

# Where $got and $wanted differ first.
difference() {
  local line
  cmp -s "$got" "$wanted" && echo "the output is right" && return
  line=$(cmp "$got" "$wanted" 2>&1 | sed -n 's/.*line \([0-9]*\).*/\1/p')
  echo "line ${line:-1}: expected $(line_of "$wanted" "${line:-1}"), got $(line_of "$got" "${line:-1}")"
}

# Counts a run: its name, its status and the one that is wanted; what it wrote stands in $got, and what it had to write in $wanted.
count() {
  if [ "$2" != "$3" ]; then
    echo "failed: $1: expected status $3, got $2; $(difference)"
  elif ! cmp -s "$got" "$wanted"; then
    echo "failed: $1: $(difference)"
  else
    passed=$((passed + 1))
    return
  fi
  failed=$((failed + 1))
}

# Says of what cannot run here why it does not.
skip() { echo "skipped: $1"; }

# Writes the last line and ends: with 1 where a test failed, with 2 where none has such a name, with 3 where none ran.
finish() {
  [ "$part" = --list ] && exit 0
  if [ "${#names[@]}" != 0 ] && [ "$asked" = 0 ]; then
    local few
    few=$(printf '%s, ' "${names[@]:0:12}")
    [ "${#names[@]}" -gt 12 ] && few="$few.., "
    echo "no test has '$part' in its name; there are ${#names[@]}: ${few%, }" >&2
    exit 2
  fi
  echo "$passed passed, $failed failed"
  [ "$failed" = 0 ] || exit 1
  [ "$passed" != 0 ] || exit 3
  exit 0
}
