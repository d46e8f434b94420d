#!/usr/bin/env bash
# Makes every record here anew from its text: NAME.cluster from NAME.room, NAME.plan from NAME.steps. A record without a text stays. Then
# stops each plan as the name of NAME.stop-STEP-MARKS.stopped says, for the record .after beside it, and divides each plan that has a
# NAME.split, for the record .single; what is refused has none.
set -euo pipefail
cd "$(dirname "$0")"

cargo build --quiet --release --offline --manifest-path ../model/Cargo.toml --bin room
room=${CARGO_TARGET_DIR:-../model/target}/release/room

for text in *.room; do
  "$room" pack "$text" "${text%.room}.cluster"
done
for text in *.steps; do
  "$room" pack-plan "$text" "${text%.steps}.plan"
done

# The example that a name is of; and the reserve, if it is for one.
of() { # NAME
  of=$1
  reserve=()
  case $of in
  *.reserve-*)
    reserve=(--reserve "${of##*.reserve-}")
    of=${of%.reserve-*}
    ;;
  esac
}

# Runs a command that writes a record, or is refused.
makes() { # COMMAND..
  local status=0
  "$room" "$@" >/dev/null 2>&1 || status=$?
  [ "$status" -eq 0 ] || [ "$status" -eq 2 ]
}

for said in *.stopped; do
  name=${said%.stopped}
  stop=${name##*.stop-}
  of "${name%.stop-*}"
  makes stop "${reserve[@]}" "$of.cluster" "$of.plan" "${stop%%-*}" "${stop#*-}" "$name.after"
done
for said in *.split; do
  name=${said%.split}
  of "$name"
  makes split "${reserve[@]}" "$of.cluster" "$of.plan" "$name.single"
done
