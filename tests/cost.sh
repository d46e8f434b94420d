#!/usr/bin/env bash
# The cost as docs/COST.md shows it: the model's table ends with the cost that the proved checker gives, and the page's loop, table and
# debugger session are what comes out. The last line is 'cost: N passed, M failed'.
set -u
cd "$(dirname "$0")/.." || exit 1
page=docs/COST.md
passed=0
failed=0

cargo build --quiet --release --offline --manifest-path model/Cargo.toml --bin room || exit 1
room=${CARGO_TARGET_DIR:-model/target}/release/room

# NAME EXPECTED FOUND
same() {
  if [ "$2" = "$3" ]; then
    passed=$((passed + 1))
  else
    failed=$((failed + 1))
    printf 'FAILED %s\n expected %s\n found %s\n' "$1" "$2" "$3"
  fi
}

# Whether the page has these lines, one behind the other, as they are.
shown() { # NAME LINES
  local text
  text=$(cat "$page")
  if [ -n "$2" ] && [[ $text == *$'\n'"$2"$'\n'* ]]; then
    passed=$((passed + 1))
  else
    failed=$((failed + 1))
    printf 'FAILED %s: %s does not have\n%s\n' "$1" "$page" "$2"
  fi
}

indented() { sed 's/^/    /'; }

# ---- the table
accepted=0
for plan in examples/*.plan; do
  cluster=${plan%.plan}.cluster
  verdict=$(./kobdrieft check "$cluster" "$plan" 2>/dev/null)
  case $verdict in
  'accepted cost '*)
    accepted=$((accepted + 1))
    same "the cost of $plan" "${verdict##* }" "$("$room" cost "$cluster" "$plan" | awk 'END { print $NF }')"
    ;;
  refused*) ;;
  *) same "a verdict on $plan" 'accepted or refused' "$verdict" ;;
  esac
done
[ "$accepted" -gt 0 ] || same 'accepted examples' 'some' 'none'
shown 'the table' "$("$room" cost examples/a.cluster examples/a.plan | indented)"

# ---- the proved code
shown 'the loop' "$(sed -n '/^    let mut steps_cost = 0;$/,/^    total$/p' crates/rules/src/cost.rt)"
same 'no lines, no locals' 0 "$(readelf -S target/bin/verdict | grep -c debug)"
same 'no name of the loop' 0 "$(nm target/bin/verdict | grep -c cost)"

# ---- the debugger
debug() { gdb -nx -q "$@" 2>&1; }
totals() { awk '{ print $NF }' | tr -d ']' | paste -s -d ' '; }

if debug -batch -ex run --args /bin/true | grep -q 'exited normally'; then
  cargo build --quiet --offline --manifest-path model/Cargo.toml --bin room || exit 1
  set -- "${CARGO_TARGET_DIR:-model/target}/debug/room" cost examples/a.cluster examples/a.plan
  typed=$(sed -n 's/^    (gdb) //p' "$page" | debug --args "$@" | grep -F '[most, steps_cost, total] = ')
  same "the page's session" '3 8 16' "$(totals <<<"$typed")"
  lines=$(debug -batch -x tests/cost.gdb --args "$@" | grep '^most ')
  same 'the session in batch' '3 8 16' "$(totals <<<"$lines")"
  shown 'what the batch prints' "$(indented <<<"$lines")"
else
  echo 'cost: there is no gdb that can run a program; its sessions are left out'
fi

echo "cost: $passed passed, $failed failed"
[ "$failed" -eq 0 ]
