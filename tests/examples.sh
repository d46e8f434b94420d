#!/usr/bin/env bash
# Every example through the proved programs: what they print is what examples/ has. NAME.reserve-R stands for NAME at reserve R, and
# NAME.stop-S-MARKS for its plan stopped in step S; what that writes is what NAME.stop-S-MARKS.after has. What dividing a plan prints and
# writes is what NAME.split and NAME.single have, by the model, too. The last line is 'examples: N passed, M failed'.
set -u
cd "$(dirname "$0")/.."
passed=0
failed=0

# NAME EXPECTED COMMAND..
compare() {
  local name=$1 expected=$2
  shift 2
  if "$@" 2>/dev/null | cmp -s - "$expected"; then
    passed=$((passed + 1))
  else
    failed=$((failed + 1))
    echo "examples: $name comes out otherwise than $expected says"
  fi
}

# The records of what a file says; the step and the marks, if it is for a stop; and the reserve, if it is for one.
of() { # FILE
  name=$(basename "$1")
  name=${name%.*}
  stop=()
  case $name in
  *.stop-*)
    stop=("${name##*.stop-}")
    stop=("${stop%%-*}" "${stop#*-}")
    name=${name%.stop-*}
    ;;
  esac
  reserve=()
  case $name in
  *.reserve-*)
    reserve=(--reserve "${name##*.reserve-}")
    name=${name%.reserve-*}
    ;;
  esac
}

for expected in examples/*.expected; do
  of "$expected"
  compare "$name" "$expected" ./kobdrieft plan "${reserve[@]}" "examples/$name.cluster"
done
for expected in examples/*.verdict; do
  of "$expected"
  compare "$name" "$expected" ./kobdrieft check "${reserve[@]}" "examples/$name.cluster" "examples/$name.plan"
done
# Runs a command that is to print what EXPECTED has and to write RECORD. What is refused has no record, and nothing is written.
writes() { # EXPECTED RECORD COMMAND..
  local expected=$1 record=$2
  shift 2
  rm -f "$after"
  compare "$name" "$expected" "$@"
  if [ -e "$record" ]; then
    compare "$name" "$record" cat "$after"
  else
    compare "$name" /dev/null find "$after"
  fi
}

scratch=$(mktemp -d)
trap 'rm -rf "$scratch"' EXIT
after=$scratch/after
for expected in examples/*.stopped; do
  of "$expected"
  writes "$expected" "${expected%.stopped}.after" \
    ./kobdrieft stop "${reserve[@]}" "examples/$name.cluster" "examples/$name.plan" "${stop[@]}" "$after"
done

cargo build --quiet --release --offline --manifest-path model/Cargo.toml --bin room
room=${CARGO_TARGET_DIR:-model/target}/release/room
for expected in examples/*.split; do
  of "$expected"
  single=${expected%.split}.single
  records=("examples/$name.cluster" "examples/$name.plan")
  writes "$expected" "$single" target/bin/divided "${records[@]}" "$after" "${reserve[@]:1}"
  # The checker accepts what was written, at the cost that was printed.
  if [ -e "$single" ]; then
    read -r _ _ _ _ cost <"$expected"
    echo "accepted cost $cost" >"$scratch/accepted"
    compare "$name" "$scratch/accepted" ./kobdrieft check "${reserve[@]}" "${records[0]}" "$after"
  fi
  writes "$expected" "$single" "$room" split "${reserve[@]}" "${records[@]}" "$after"
done
echo "examples: $passed passed, $failed failed"
[ "$failed" -eq 0 ] && [ "$passed" -gt 0 ]
