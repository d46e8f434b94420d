#!/usr/bin/env bash
# What ./kobdrieft prints and how it ends: on the built programs, and in a small repository whose 'rt' and 'cargo' are stand-ins.
# The last line is 'driver: N passed, M failed'.
set -u
root=$(cd "$(dirname "$0")/.." && pwd -P)
driver=$root/kobdrieft
data=$root/crates/verdict/data
passed=0 failed=0

room=$(mktemp -d)
trap 'rm -rf "$room"' EXIT
mkdir "$room/a place" "$room/a place/folder"
cd "$room/a place" || exit 1

# Runs a command and compares its status and standard output, and a pattern that its standard error has; '' is no line at all.
expect() { # NAME STATUS OUTPUT PATTERN COMMAND..
  local name=$1 status=$2 output=$3 pattern=$4 said ended errors
  shift 4
  said=$("$@" 2>"$room/errors")
  ended=$?
  errors=$(cat "$room/errors")
  # shellcheck disable=SC2053
  if [ "$ended" = "$status" ] && [ "$said" = "$output" ] && [[ $errors == $pattern ]]; then
    passed=$((passed + 1))
  else
    failed=$((failed + 1))
    printf 'FAILED %s\n status %s\n output %s\n errors %s\n' "$name" "$ended" "$said" "$errors"
  fi
}

bytes() { # HEX..
  local pair
  for pair in $(fold -w 2 <<<"$(printf %s "$@")"); do
    # shellcheck disable=SC2059
    printf "\\x$pair"
  done
}

long_plan() { # VERSION STATED SIZE
  bytes "$1" "$(printf %08x "$2")"
  head -c "$(($3 - 5))" /dev/zero
}

cp "$data/a.cluster" 'cluster A'
cp "$data/a.plan" 'plan A'
cp "$data/a.plan" ./-plan
bytes 01 00000028 0003 0002 0000 0000040064 0000040064 0000010064 0000030032 00 01 0000020032 01 00 >blocked
bytes 01 00000013 0003 0001 00 02 0001 01 00 0001 00 01 >plain
bytes 02 00000016 0003 0001 00 00 02 0001 01 01 00 0001 00 00 01 >stale
bytes 02 00000007 0000 >none
bytes 01 00000007 0000 >plain-none
bytes 01 0000000d 0001 0002 00 01 01 00 >both
: >empty
bytes 01 00000028 0003 0002 0000 0000040064 0000040064 0000040064 0000030032 00 00 0000020032 01 01 >home
head -c 6 none >cut
# cluster A with memory 3 on node 2, of which a reserve of 10 percent leaves 2; with memory 2, of which it leaves 1
bytes 01 00000028 0003 0002 0000 0000040064 0000040064 0000030064 0000030032 00 01 0000020032 01 00 >tight
bytes 01 00000028 0003 0002 0000 0000040064 0000040064 0000020064 0000030032 00 01 0000020032 01 00 >narrow
# VM 0 is to shut down, VM 1 to be launched on the node that it leaves; then the same record with version 1 and version 3 in front
turnover=(00000028 0003 0002 0000 0000040064 0000040064 0000040064 0000030032 00 ff 0000020032 ff 00)
bytes 02 "${turnover[@]}" >turnover
bytes 01 "${turnover[@]}" >turnover-1
bytes 03 "${turnover[@]}" >turnover-3
bytes 02 00000011 0002 0001 00 00 ff 0001 01 ff 00 >'plan of turnover'
bytes 01 0000000d 0001 0002 00 ff 01 00 >at-once
bytes 01 0000000b 0001 0001 01 ff >kill
long_plan 01 65536 65536 >long
long_plan 01 65536 65537 >longer
long_plan 01 65537 65537 >honest
long_plan 02 65537 65537 >honest-2
long_plan 03 65537 65537 >versioned
long_plan 02 4103 4103 >most
long_plan 02 4104 4104 >past
long_plan 02 4103 4104 >past-untold
long_plan 03 4104 4104 >past-versioned
a_plan=$(cat "$root/crates/plan/stdout")

"$driver" plan 'cluster A' >/dev/null # builds what is missing, and says so
files() { find "$1" \( -path "$1/target" -o -path "$1/crates/*/out" \) -prune -o -type f -print | sort; }
before=$(files .)

# what the programs print; what a refusal means goes to standard error
expect 'a plan' 0 "$a_plan" '' "$driver" plan 'cluster A'
expect 'blocked' 1 'blocked steps 0 moves 0 cost 0' '' "$driver" plan blocked
expect 'no record to plan' 2 'refused 1 step 0' 'kobdrieft: The cluster record has fewer than 11 bytes.' "$driver" plan empty
expect 'accepted' 0 'accepted cost 16' '' "$driver" check 'cluster A' 'plan A'
expect 'accepted in version 1' 0 'accepted cost 16' '' "$driver" check 'cluster A' plain
expect 'another source' 2 'refused 27 step 3' 'kobdrieft: A move names a source that is not the place of its VM when the step starts.' "$driver" check 'cluster A' stale
expect 'too early' 2 'refused 33 step 1' 'kobdrieft: A step moves a VM before the one that it waits for is on its target, or in one step with it.' "$driver" check "$root/examples/before-both.cluster" "$root/examples/before-both.plan"
expect 'a step later' 0 'accepted cost 8' '' "$driver" check "$root/examples/before.cluster" "$root/examples/before.plan"
expect 'planned a step later' 0 $'plan steps 2 moves 2 cost 8\n1 0 0 1\n2 1 0 2' '' "$driver" plan "$root/examples/before.cluster"
expect 'each waits for the other' 1 'blocked steps 0 moves 0 cost 0' '' "$driver" plan "$root/examples/before-mutual.cluster"
expect 'off target' 2 'refused 19 step 0' 'kobdrieft: Every step is sound, but after the last some VM is off its target.' "$driver" check 'cluster A' none
expect 'off target in version 1' 2 'refused 19 step 0' 'kobdrieft: Every step is sound*' "$driver" check 'cluster A' plain-none
expect 'does not fit' 2 'refused 17 step 1' 'kobdrieft: In some order*' "$driver" check 'cluster A' both
expect 'no record to check' 2 'refused 1 step 0' '*fewer than 11 bytes*' "$driver" check empty 'plan A'
expect 'a cut plan' 2 'refused 11 step 0' 'kobdrieft: The plan record has 1 to 6 bytes.' "$driver" check home cut
expect 'an empty plan, nothing to move' 0 'accepted cost 0' '' "$driver" check home empty
expect 'an empty plan from a pipe' 0 'accepted cost 0' '' "$driver" check home <(cat empty)
expect 'an empty plan, VMs to move' 2 'refused 19 step 0' 'kobdrieft: Every step is sound*' "$driver" check 'cluster A' empty
expect 'an empty plan, no cluster' 2 'refused 1 step 0' '*fewer than 11 bytes*' "$driver" check empty empty
expect 'a long cluster' 2 'refused 3 step 0' 'kobdrieft: *' "$driver" check longer 'plan A'
expect 'a full buffer of plan' 2 'refused 14 step 0' 'kobdrieft: *' "$driver" check 'cluster A' long
expect 'a long plan, another length stated' 2 'refused 13 step 0' 'kobdrieft: *' "$driver" check 'cluster A' longer
expect 'a long plan, its length stated' 2 'refused 14 step 0' 'kobdrieft: *' "$driver" check 'cluster A' honest
expect 'a long plan of version 2, its length stated' 2 'refused 14 step 0' 'kobdrieft: *' "$driver" check 'cluster A' honest-2
expect 'a long plan, another version' 2 'refused 12 step 0' 'kobdrieft: The plan record*neither 1 nor 2.' "$driver" check 'cluster A' versioned
expect 'a plan of 4,103 bytes' 2 'refused 14 step 0' 'kobdrieft: *' "$driver" check 'cluster A' most
expect 'a plan of 4,104 bytes' 2 'refused 14 step 0' 'kobdrieft: *' "$driver" check 'cluster A' past
expect 'a plan of 4,104 bytes, another length stated' 2 'refused 13 step 0' 'kobdrieft: *' "$driver" check 'cluster A' past-untold
expect 'a plan of 4,104 bytes, another version' 2 'refused 12 step 0' 'kobdrieft: *' "$driver" check 'cluster A' past-versioned

# VMs on no node
turnover_plan=$'plan steps 2 moves 2 cost 2\n1 0 0 255\n2 1 255 0'
expect 'a shutdown, then a launch' 0 "$turnover_plan" '' "$driver" plan turnover
expect 'checked' 0 'accepted cost 2' '' "$driver" check turnover 'plan of turnover'
expect 'both at once' 2 'refused 17 step 1' 'kobdrieft: In some order*' "$driver" check turnover at-once
expect 'a shutdown of what is wanted on a node' 2 'refused 15 step 1' 'kobdrieft: *or one that is wanted on a node is shut down.' "$driver" check turnover kill
expect 'a shutdown in a cluster of version 1' 2 'refused 15 step 1' 'kobdrieft: *' "$driver" check 'cluster A' at-once
expect '255 in version 1' 2 'refused 6 step 0' 'kobdrieft: A VM has no memory, or is on*' "$driver" plan turnover-1
expect 'a cluster of version 3' 2 'refused 2 step 0' "kobdrieft: The cluster record's version is neither 1 nor 2." "$driver" plan turnover-3

# with a share of each node kept free
other_plan=$'plan steps 3 moves 3 cost 14\n1 1 1 2\n2 0 0 1\n3 1 2 0'
expect 'a plan with a reserve' 0 "$a_plan" '' "$driver" plan --reserve 25 'cluster A'
expect 'a plan with reserve 0' 0 "$a_plan" '' "$driver" plan --reserve 0 'cluster A'
expect 'another plan by a reserve' 0 "$other_plan" '' "$driver" plan --reserve 10 tight
expect 'not without it' 0 "$a_plan" '' "$driver" plan tight
expect 'blocked by a reserve' 1 'blocked steps 0 moves 0 cost 0' '' "$driver" plan --reserve 10 narrow
expect 'a plan without it' 0 "$other_plan" '' "$driver" plan narrow
expect 'a target over what is usable' 2 'refused 8 step 0' 'kobdrieft: The target puts more memory or CPU on some node than is usable there.' "$driver" plan --reserve 26 'cluster A'
expect 'the most' 2 'refused 8 step 0' 'kobdrieft: *' "$driver" plan --reserve 90 'cluster A'
expect 'more than the most' 2 'refused 23 step 0' 'kobdrieft: The reserve is above 90 percent.' "$driver" plan --reserve 91 'cluster A'
expect 'a reserve of more than 8 bits' 2 'refused 23 step 0' 'kobdrieft: *' "$driver" plan --reserve 256 'cluster A'
expect 'a reserve of more than 64 bits' 2 'refused 23 step 0' 'kobdrieft: *' "$driver" plan --reserve 18446744073709551626 'cluster A'
expect 'before all else' 2 'refused 23 step 0' 'kobdrieft: *' "$driver" plan --reserve 91 empty
expect 'checked with a reserve' 0 'accepted cost 16' '' "$driver" check --reserve 25 'cluster A' 'plan A'
expect 'checked with too large a one' 2 'refused 8 step 0' 'kobdrieft: *' "$driver" check --reserve 26 'cluster A' 'plan A'
expect 'a move over what is usable' 2 'refused 17 step 1' 'kobdrieft: In some order*' "$driver" check --reserve 10 tight 'plan A'
expect 'accepted without it' 0 'accepted cost 16' '' "$driver" check tight 'plan A'
expect 'checked with more than the most' 2 'refused 23 step 0' 'kobdrieft: The reserve is above 90 percent.' "$driver" check --reserve 91 empty empty
expect 'a plan with a reserve, written' 0 "$a_plan" '' "$driver" plan --reserve 25 'cluster A' ../out
expect 'the same record' 0 '' '' cmp 'plan A' ../out
expect 'a page with a reserve' 0 '' '' "$driver" draw --reserve 10 tight 'plan A' ../page.html
expect 'no reserve' 3 '' 'kobdrieft: --reserve takes a percent*usage:*' "$driver" plan --reserve
expect 'a reserve that is no number' 3 '' 'plan_at: the reserve is not a number in digits: ten' "$driver" plan --reserve ten 'cluster A'
expect 'a reserve with a sign' 3 '' 'verdict: the reserve is not a number in digits: -1' "$driver" check --reserve -1 'cluster A' 'plan A'
expect 'an empty reserve' 3 '' 'verdict: the reserve is not a number in digits: ' "$driver" check --reserve '' 'cluster A' 'plan A'
expect 'a reserve and no file' 3 '' 'kobdrieft: plan takes a cluster record*' "$driver" plan --reserve 10
expect 'a reserve in one word' 3 '' 'kobdrieft: plan does not take --reserve=10*usage:*' "$driver" plan --reserve=10 'cluster A'
expect 'a reserve behind the file' 3 '' 'kobdrieft: plan does not take --reserve=10*' "$driver" plan 'cluster A' --reserve=10
expect 'another option' 3 '' 'kobdrieft: check does not take --reserves*' "$driver" check --reserves 'cluster A'
expect 'two reserves' 3 '' 'kobdrieft: check does not take --reserve*' "$driver" check --reserve 10 --reserve 10 'cluster A' 'plan A'
expect 'a page with more than the most' 2 '' 'room: *refused with number 23*' "$driver" draw --reserve 91 'cluster A' 'plan A' ../page-23.html
expect 'is not drawn' 1 '' '' test -e ../page-23.html
expect 'a reserve for the cost' 3 '' 'kobdrieft: cost takes *' "$driver" cost --reserve 10 'cluster A' 'plan A'
long_digits=$(printf %05000d 5)
expect 'a reserve of 5,000 digits' 3 '' 'plan_at: the reserve is not a number in digits: ' "$driver" plan --reserve "$long_digits" 'cluster A'

# a plan that is stopped in the middle
five() { printf '%s' "$root/examples/five.$1"; }
expect 'stopped' 0 'stopped length 40' '' "$driver" stop 'cluster A' 'plan A' 1 1 ../stopped
expect 'planned from there' 0 $'plan steps 2 moves 2 cost 7\n1 1 1 0\n2 0 2 1' '' "$driver" plan ../stopped
expect 'called back' 0 'stopped length 40' '' "$driver" stop 'cluster A' 'plan A' 1 0 ../stopped
expect 'as it was' 0 '' '' cmp 'cluster A' ../stopped
expect 'stopped in version 1' 0 'stopped length 40' '' "$driver" stop 'cluster A' plain 3 1 ../stopped
expect 'everybody at home' 0 'plan steps 0 moves 0 cost 0' '' "$driver" plan ../stopped
expect 'one of two' 0 'stopped length 40' '' "$driver" stop "$(five cluster)" "$(five plan)" 1 10 ../stopped
expect 'the other is left' 0 $'plan steps 1 moves 1 cost 2\n1 1 1 0' '' "$driver" plan ../stopped
expect 'a shutdown that ended' 0 'stopped length 40' '' "$driver" stop turnover 'plan of turnover' 1 1 ../stopped
expect 'the launch is left' 0 $'plan steps 1 moves 1 cost 2\n1 1 255 0' '' "$driver" plan ../stopped
expect 'stopped with a reserve' 0 'stopped length 40' '' "$driver" stop --reserve 25 'cluster A' 'plan A' 1 1 ../stopped
expect 'a refused plan, stopped' 2 'refused 17 step 1' 'kobdrieft: In some order*' "$driver" stop 'cluster A' both 1 11 ../none
expect 'with more than the most' 2 'refused 23 step 0' 'kobdrieft: *' "$driver" stop --reserve 91 'cluster A' 'plan A' 1 1 ../none
expect 'in step 0' 2 'refused 20 step 0' 'kobdrieft: The step that the plan was stopped in is not one of its steps*' "$driver" stop 'cluster A' 'plan A' 0 1 ../none
expect 'behind the last step' 2 'refused 20 step 0' 'kobdrieft: *' "$driver" stop 'cluster A' 'plan A' 4 1 ../none
expect 'in a step of more than 32 bits' 2 'refused 20 step 0' 'kobdrieft: *' "$driver" stop 'cluster A' 'plan A' 4294967297 1 ../none
expect 'in a step of more than 64 bits' 2 'refused 20 step 0' 'kobdrieft: *' "$driver" stop 'cluster A' 'plan A' 18446744073709551617 1 ../none
expect 'no marks' 2 'refused 20 step 0' 'kobdrieft: *' "$driver" stop 'cluster A' 'plan A' 1 '' ../none
expect 'a mark too many' 2 'refused 20 step 0' 'kobdrieft: *' "$driver" stop 'cluster A' 'plan A' 1 11 ../none
expect '5,000 marks' 2 'refused 20 step 0' 'kobdrieft: *' "$driver" stop 'cluster A' 'plan A' 1 "$long_digits" ../none
expect 'an empty plan, stopped' 2 'refused 20 step 0' 'kobdrieft: *' "$driver" stop home empty 1 '' ../none
expect 'a long plan, stopped' 2 'refused 14 step 0' 'kobdrieft: *' "$driver" stop 'cluster A' honest 1 1 ../none
expect 'a mark that is none' 2 'refused 21 step 0' 'kobdrieft: A mark is neither 0 nor 1.' "$driver" stop 'cluster A' 'plan A' 1 2 ../none
expect 'marks in letters' 3 '' 'stopped: the marks are not all digits: 1x' "$driver" stop 'cluster A' 'plan A' 1 1x ../none
expect 'a step in letters' 3 '' 'stopped: the step is not a number in digits: one' "$driver" stop 'cluster A' 'plan A' one 1 ../none
expect 'a step with a sign' 3 '' 'stopped: the step is not a number in digits: -1' "$driver" stop 'cluster A' 'plan A' -1 1 ../none
expect 'nothing is written of a refusal' 1 '' '' test -e ../none
expect 'stopped over the cluster record' 3 '' 'kobdrieft: the record would be written over the cluster record: *' "$driver" stop 'cluster A' 'plan A' 1 1 "$PWD/cluster A"
expect 'stopped over the plan record' 3 '' 'kobdrieft: the record would be written over the plan record: *' "$driver" stop 'cluster A' 'plan A' 1 1 'plan A'
expect 'stopped with no folder to write to' 3 '' 'stopped: cannot write nowhere/record: No such file or directory' "$driver" stop 'cluster A' 'plan A' 1 1 nowhere/record
expect 'stop of four' 3 '' 'kobdrieft: stop takes *' "$driver" stop 'cluster A' 'plan A' 1 1
expect 'stop: no such plan' 3 '' 'kobdrieft: no such file: plant.plan' "$driver" stop 'cluster A' plant.plan 1 1 ../none
expect 'the stopping program: no arguments' 0 '' 'stopped: it takes a cluster file, *' "$root/target/bin/stopped"

# a plan in single moves
thin() { printf '%s' "$root/examples/thin-links.$1"; }
expect 'divided' 0 'divided steps 4 cost 30' '' "$driver" split "$(thin cluster)" "$(thin plan)" ../single
expect 'its record' 0 '' '' cmp "$(thin single)" ../single
expect 'what it was' 0 'accepted cost 14' '' "$driver" check "$(thin cluster)" "$(thin plan)"
expect 'what it is' 0 'accepted cost 30' '' "$driver" check "$(thin cluster)" ../single
expect 'divided again' 0 'divided steps 4 cost 30' '' "$driver" split "$(thin cluster)" ../single ../again
expect 'as it is' 0 '' '' cmp ../single ../again
expect 'nothing to divide' 0 'divided steps 3 cost 16' '' "$driver" split 'cluster A' 'plan A' ../single
expect 'version 2 is kept' 0 '' '' cmp 'plan A' ../single
expect 'version 1 is kept' 0 'divided steps 3 cost 16' '' "$driver" split 'cluster A' plain ../single
expect 'byte for byte' 0 '' '' cmp plain ../single
expect 'an empty plan, divided' 0 'divided steps 0 cost 0' '' "$driver" split home empty ../single
expect 'it becomes a header' 0 '' '' cmp none ../single
expect 'a header of version 1, divided' 0 'divided steps 0 cost 0' '' "$driver" split home plain-none ../single
expect 'it stays one' 0 '' '' cmp plain-none ../single
expect 'divided with a reserve' 0 'divided steps 3 cost 16' '' "$driver" split --reserve 25 'cluster A' 'plan A' ../single
expect '512 moves' 0 'divided steps 512 cost 131328' '' "$driver" split "$root/examples/most-moves.cluster" "$root/examples/most-moves.plan" ../single
expect 'more moves' 2 'refused 14 step 0' 'kobdrieft: *512*' "$driver" split "$root/examples/more-moves.cluster" "$root/examples/more-moves.plan" ../undivided
expect 'a refused plan, divided' 2 'refused 17 step 1' 'kobdrieft: In some order*' "$driver" split 'cluster A' both ../undivided
expect 'divided with more than the most' 2 'refused 23 step 0' 'kobdrieft: *' "$driver" split --reserve 91 'cluster A' 'plan A' ../undivided
expect 'an empty plan, VMs to move, divided' 2 'refused 19 step 0' 'kobdrieft: *' "$driver" split 'cluster A' empty ../undivided
expect 'a long plan, divided' 2 'refused 14 step 0' 'kobdrieft: *' "$driver" split 'cluster A' honest ../undivided
expect 'nothing is written of it' 1 '' '' test -e ../undivided
expect 'divided over the cluster record' 3 '' 'kobdrieft: the divided plan would be written over the cluster record: *' "$driver" split 'cluster A' 'plan A' "$PWD/cluster A"
expect 'divided over the plan record' 3 '' 'kobdrieft: the divided plan would be written over the plan record: *' "$driver" split 'cluster A' 'plan A' 'plan A'
expect 'divided with no folder to write to' 3 '' 'divided: cannot write nowhere/plan: No such file or directory' "$driver" split 'cluster A' 'plan A' nowhere/plan
expect 'split of two' 3 '' 'kobdrieft: split takes *' "$driver" split 'cluster A' 'plan A'
expect 'split: no such plan' 3 '' 'kobdrieft: no such file: plant.plan' "$driver" split 'cluster A' plant.plan ../undivided
expect 'split: a word too many' 3 '' 'kobdrieft: split does not take --single*' "$driver" split 'cluster A' 'plan A' --single
expect 'the dividing program: no arguments' 0 '' 'divided: it takes a cluster file, *' "$root/target/bin/divided"

# the plan record
written() { "$driver" plan "$1" "$2" && od -An -v -tx1 "$2" | tr -d ' \n'; }
kept() { # COMMAND.. OUT: what is in OUT behind a command that writes nothing
  echo before >"${!#}"
  "$@"
  local status=$?
  cat "${!#}"
  return "$status"
}
expect 'a plan, written' 0 "$a_plan"$'\n'"$(od -An -v -tx1 'plan A' | tr -d ' \n')" '' written 'cluster A' ../out
expect 'a plan of no steps, written' 0 'plan steps 0 moves 0 cost 0' '' "$driver" plan home ../out
expect 'its header' 0 '' '' cmp none ../out
expect 'blocked, written' 1 'blocked steps 0 moves 0 cost 0' '' "$driver" plan blocked ../out
expect 'the steps made' 0 '' '' cmp none ../out
expect 'refused, not written' 2 $'refused 1 step 0\nbefore' 'kobdrieft: *' kept "$driver" plan empty ../out
expect 'the planned record is accepted' 0 'accepted cost 16' '' bash -c '"$0" plan "cluster A" ../out >/dev/null && "$0" check "cluster A" ../out' "$driver"
expect 'over the cluster record' 3 '' 'kobdrieft: the plan would be written over the cluster record: *' "$driver" plan 'cluster A' "$PWD/cluster A"
expect 'no folder to write to' 3 '' 'plan: cannot write nowhere/plan: No such file or directory' "$driver" plan 'cluster A' nowhere/plan
expect 'a full disk' 3 '' 'plan: cannot write /dev/full: No space left on device' "$driver" plan 'cluster A' /dev/full

# a read that fails is told, and is no verdict
expect 'plan: a read that fails' 3 '' 'plan: cannot read standard input: Input/output error' "$driver" plan /proc/self/mem
expect 'check: a read that fails' 3 '' 'verdict: cannot read /proc/self/mem: Input/output error' "$driver" check 'cluster A' /proc/self/mem

# text, pages and the library
expect 'a record as text' 0 '' '' "$driver" unpack 'cluster A' ../text
expect 'a record from text' 0 '' '' "$driver" pack ../text ../packed
expect 'the same record' 0 '' '' cmp 'cluster A' ../packed
expect 'a record of version 2 as text' 0 '' '' "$driver" unpack turnover ../text
expect 'its words' 0 2 '' grep -c nowhere ../text
expect 'a record of version 2 from text' 0 '' '' "$driver" pack ../text ../packed
expect 'the same record of version 2' 0 '' '' cmp turnover ../packed
expect 'a plan of launches as text' 0 '' '' "$driver" unpack-plan 'plan of turnover' ../text
expect 'a plan of launches from text' 0 '' '' "$driver" pack-plan ../text ../packed
expect 'the same plan of launches' 0 '' '' cmp 'plan of turnover' ../packed
expect 'a page of launches' 0 '' '' "$driver" draw turnover 'plan of turnover' ../page.html
expect 'a plan record as text' 0 '' '' "$driver" unpack-plan 'plan A' ../text
expect 'a plan record from text' 0 '' '' "$driver" pack-plan ../text ../packed
expect 'the same plan record' 0 '' '' cmp 'plan A' ../packed
expect 'a plan record of version 1 as text' 0 '' '' "$driver" unpack-plan plain ../text
expect 'a plan record of version 1 from text' 0 '' '' "$driver" pack-plan ../text ../packed
expect 'the same plan record of version 1' 0 '' '' cmp plain ../packed
expect 'a header as text' 0 '' '' "$driver" unpack-plan none ../text
expect 'a header of version 2 from its text' 0 '' '' "$driver" pack-plan ../text ../packed
expect 'the same header' 0 '' '' cmp none ../packed
expect 'an empty plan as text' 0 '' '' "$driver" unpack-plan empty ../text
expect 'a header from its text' 0 '' '' "$driver" pack-plan ../text ../packed
expect 'of no steps' 0 '' '' cmp plain-none ../packed
expect 'the cost of an empty plan' 0 "$(printf '%s\n' 'step  moves  most  before  sum  total' 'cost                                0')" '' "$driver" cost home empty
expect 'the cost, step after step' 0 "$(printf '%s\n' 'step  moves  most  before  sum  total' '   1      2     3       0    5      5' 'cost                                5')" 'room: the checker would refuse this plan (refused 17 step 1)*' "$driver" cost 'cluster A' both
expect 'a page' 0 '' '' "$driver" draw 'cluster A' 'plan A' ../page.html
expect 'whose verdict' 0 '1' '' bash -c 'grep -c "proved checker" ../page.html'
expect 'a page of a plan of version 1' 0 '' '' "$driver" draw 'cluster A' plain ../page.html
expect 'a page of another source' 0 '' '' "$driver" draw 'cluster A' stale ../page.html
expect 'what refuses it' 0 '' '' grep -q 'names node 0 as its source, but VM 0 is on node 2' ../page.html
expect 'a page of an empty plan' 0 '' '' "$driver" draw home empty ../page.html
expect 'a page of a cut plan' 2 '' 'room: *' "$driver" draw home cut ../page.html
expect 'a page from a pipe' 3 '' 'kobdrieft: draw reads its files twice*' "$driver" draw <(cat 'cluster A') 'plan A' ../page.html

# where the files are
expect 'a name like an option' 0 'accepted cost 16' '' "$driver" check 'cluster A' -plan
expect 'full paths' 0 'accepted cost 16' '' "$driver" check "$PWD/cluster A" "$PWD/plan A"
expect 'pipes' 0 'accepted cost 16' '' "$driver" check <(cat 'cluster A') <(cat 'plan A')
expect 'standard input' 0 "$a_plan" '' "$driver" plan /dev/stdin <'cluster A'
mkdir "$room/links"
ln -s "$driver" "$room/links/absolute"
ln -s absolute "$room/links/of a link"
expect 'through a link' 0 'accepted cost 16' '' "$room/links/absolute" check 'cluster A' 'plan A'
expect 'through a link of a link' 0 'accepted cost 16' '' ../links/'of a link' check 'cluster A' 'plan A'

# wrong use
expect 'help' 0 "$("$driver" --help)" '' "$driver" help
expect 'no command' 3 '' 'usage: kobdrieft plan *' "$driver"
expect 'another command' 3 '' 'kobdrieft: no such command: plans*usage:*' "$driver" plans
expect 'plan of nothing' 3 '' 'kobdrieft: plan takes a cluster record*usage:*' "$driver" plan
expect 'plan of three' 3 '' 'kobdrieft: plan takes a cluster record*' "$driver" plan 'cluster A' 'plan A' more
expect 'check of one' 3 '' 'kobdrieft: check takes a cluster record and a plan record*' "$driver" check 'cluster A'
expect 'cost of one' 3 '' 'kobdrieft: cost takes *' "$driver" cost 'cluster A'
expect 'draw of two' 3 '' 'kobdrieft: draw takes *' "$driver" draw 'cluster A' 'plan A'
expect 'lib of a file' 3 '' 'kobdrieft: lib takes no argument*' "$driver" lib 'cluster A'
expect 'test of a file' 3 '' 'kobdrieft: test takes no argument*' "$driver" test 'cluster A'
expect 'bench of a file' 3 '' 'kobdrieft: bench takes no argument*' "$driver" bench 'cluster A'
expect 'plan: no such file' 3 '' 'kobdrieft: no such file: plant.cluster' "$driver" plan plant.cluster
expect 'check: no such file' 3 '' 'kobdrieft: no such file: plant.plan' "$driver" check 'cluster A' plant.plan
expect 'plan: a folder' 3 '' 'kobdrieft: a directory, not a file: folder' "$driver" plan folder
expect 'check: a folder' 3 '' 'kobdrieft: a directory, not a file: folder' "$driver" check folder 'plan A'
expect 'check: a folder as plan' 3 '' 'kobdrieft: a directory, not a file: folder' "$driver" check home folder
expect 'check: no such plan' 3 '' 'kobdrieft: no such file: plant.plan' "$driver" check home plant.plan
# shellcheck disable=SC2016
expect 'nowhere to print' 3 '' '*kobdrieft: cannot write to standard output' bash -c '"$0" plan "cluster A" >/dev/full' "$driver"
expect 'the program: no arguments' 0 '' 'verdict: it takes a cluster file and a plan file, and a reserve if one is kept' "$root/target/bin/verdict"
expect 'the program: four arguments' 0 '' 'verdict: it takes *' "$root/target/bin/verdict" 'cluster A' 'plan A' 10 20
expect 'the program: a reserve' 0 'accepted cost 16' '' "$root/target/bin/verdict" 'cluster A' 'plan A' 25
expect 'the planning program: no reserve' 0 '' 'plan_at: it takes a reserve, *' "$root/target/bin/plan_at"
expect 'the program: no such file' 0 '' 'verdict: cannot read plant: No such file or directory' "$root/target/bin/verdict" 'cluster A' plant
expect 'the program: a folder' 0 '' 'verdict: cannot read folder: Is a directory' "$root/target/bin/verdict" folder 'plan A'
expect 'the program: a folder as plan' 0 '' 'verdict: cannot read folder: Is a directory' "$root/target/bin/verdict" home folder
expect 'the program: no such plan' 0 '' 'verdict: cannot read plant: No such file or directory' "$root/target/bin/verdict" home plant

expect 'nothing written' 0 "$before" '' files .

# ---- a small repository, with a kit that is a script
small=$room/'small one'
mkdir -p "$small"/crates/{plan,plan_at,verdict/data,stopped,divided,kobdrieft_c} "$small/model/harness" "$small/agent" "$room/tools" "$room/kit"
cp "$driver" "$small/kobdrieft"
: >"$small/crates.txt"
: >"$small/crates/plan/source"
for tool in awk bash cat chmod cmp cp date dirname env find flock head mkdir mv readlink rm sleep tail touch; do
  ln -s "$(command -v "$tool")" "$room/tools/$tool"
done
# what the programs are to do: one is given its stdin, one its args, a file of data/ and a status, the others nothing
echo 'plan steps 1' | tee "$small/crates/plan/stdin" >"$small/crates/plan/stdout"
echo 'accepted cost 1' | tee "$small/crates/verdict/data/a file" >"$small/crates/verdict/stdout"
printf '%s\n' 'a file' 7 >"$small/crates/verdict/args"
echo 7 >"$small/crates/verdict/status"
# rt builds what the folder that it is run in has
cat >"$room/kit/rt" <<'EOF'
#!/usr/bin/env bash
echo "rt $* in ${PWD##*/}"
echo "rt $* in ${PWD##*/}" >>"$CALLS"
[ ! -e "$CALLS.slow" ] || sleep 1
[ ! -e "$CALLS.break" ] || { echo 'rules NOT PROVED'; exit 1; }
mkdir -p out
if [ "$1" = run ]; then
  printf '#!/usr/bin/env bash\ncat\n' >"out/$2"
  [ "$2" != verdict ] || printf '#!/usr/bin/env bash\n[ $# -eq 0 ] || cat "$1"\n[ "${2-}" = 7 ] && exit 7\nexit "${ENDS:-0}"\n' >"out/$2"
  chmod +x "out/$2"
  "out/$2"
else
  : >"out/lib${PWD##*/}.a"
fi
EOF
cat >"$room/kit/cargo" <<'EOF'
#!/usr/bin/env bash
echo "cargo $1 in ${PWD##*/}"
EOF
cp "$room/kit/cargo" "$room/kit/cc"
printf '#!/usr/bin/env bash\nmkdir -p "$2"\n' >"$small/agent/lib.sh"
chmod +x "$room"/kit/* "$small/agent/lib.sh"
before=$(files "$small")
echo 'plan steps 0' >said
export CALLS=$room/calls
bare() { PATH=$room/tools "$small/kobdrieft" "$@"; }
kit() { PATH=$room/kit:$room/tools "$small/kobdrieft" "$@"; }
both_at_once() { kit plan said & kit plan said; wait; }
calls() { cat "$CALLS" 2>/dev/null; rm -f "$CALLS"; }
five=$(printf 'rt run %s in %s\n' plan plan plan_at plan_at verdict verdict stopped stopped divided divided)

expect 'no kit' 4 '' "kobdrieft: 'rt' is not on the PATH: the Rattle kit is needed to build the planner and the checker" bare plan said
expect 'no kit to test' 4 '' "kobdrieft: 'rt' is not on the PATH: *" bare test
expect 'no cargo' 4 '' "kobdrieft: 'cargo' is not on the PATH: *" bare bench
expect 'a file is looked at before a build' 3 '' 'kobdrieft: no such file: nothing' kit plan nothing
expect 'nothing was built' 0 '' '' calls
: >"$CALLS.break"
expect 'a failed build' 4 '' '*3 to 5 minutes, once*rules NOT PROVED*kobdrieft: failed: rt run plan; the whole log is *' kit plan said
rm -f "$CALLS.break" "$CALLS"
expect 'first use' 0 'plan steps 0' "kobdrieft: proving and building the planner and the checker, 3 to 5 minutes, once (log: $small/target/kobdrieft.log)" kit plan said
expect 'one build' 0 "$five" '' calls
expect 'the log has it' 0 "$five" '' cat "$small/target/kobdrieft.log"
expect 'second use' 0 'plan steps 0' '' kit plan said
expect 'without the kit once built' 0 'plan steps 0' '' bare plan said
expect 'no second build' 0 '' '' calls
touch "$small/crates/plan/source"
expect 'a source changed' 0 'plan steps 0' '*the checker anew, up to 3 minutes*' kit plan said
rm "$small/target/bin/plan"
expect 'a program not seen to run' 0 'plan steps 0' '*proving and building*' kit plan said
rm "$small/target/bin/verdict"
expect 'a program missing' 0 'plan steps 0' '*proving and building*' kit check said said
expect 'three builds' 0 "$five"$'\n'"$five"$'\n'"$five" '' calls
echo more >"$small/crates/divided/out/more"
expect 'what rt keeps is no source' 0 'plan steps 0' '' kit plan said

# a program that is proved but does not do what its crate says is not put into bin/, and is built again
wrong_run() { # FOLDER NAME TEXT PATTERN
  rm -r "$small/target"
  cp -R "$small/crates/$1" "$room/kept"
  printf %s "$3" >"$small/crates/$1/$2"
  expect "another $1/$2" 4 '' "*$4*kobdrieft: failed: runs_as_it_should $1; the whole log is *" kit plan said
  expect "$1 is not there" 1 '' '' test -e "$small/target/bin/$1"
  rm -r "${small:?}/crates/$1"
  mv "$room/kept" "$small/crates/$1"
  touch "$small/crates/$1"
}
wrong_run plan stdin 'plan steps 2' differ
wrong_run plan stdout 'plan steps 1' EOF
wrong_run plan stdout '' 'EOF on *stdout'
wrong_run plan_at stdin 'plan steps 1' 'EOF on /dev/null'
wrong_run plan_at status 1 'plan_at ended with status 0, and not 1'
wrong_run verdict args 'a file' 'verdict ended with status 0, and not 7'
wrong_run verdict args $'no file\n7' 'EOF on ../stdout'
wrong_run verdict data/'a file' 'accepted cost 2' differ
expect 'a program seen to run at last' 0 'plan steps 0' '*proving and building*' kit plan said
rm -f "$CALLS"
rm -r "$small/target"
: >"$CALLS.slow"
expect 'two first uses at once' 0 $'plan steps 0\nplan steps 0' '*another build is under way; waiting for it*' both_at_once
expect 'one of them builds' 0 "$five" '' calls
rm "$CALLS.slow"
expect 'a program that breaks off' 4 '' 'kobdrieft: * ended with status 4' env ENDS=4 PATH="$room/tools" "$small/kobdrieft" check said said
expect 'a program with no answer' 3 '' '' bare check empty said
expect 'lib' 0 '' '*proving and building the library*kobdrieft: */target/lib has libkobdrieft.a and kobdrieft.h' kit lib
expect 'bench' 0 'cargo run in harness' 'kobdrieft: building the benchmark*' kit bench
expect 'one archive' 0 'rt lib in kobdrieft_c' '' calls
expect 'only target/ written' 0 "$before" '' files "$small"

# root reads every file, so as nobody
unreadable() {
  if [ "$(id -u)" = 0 ]; then
    setpriv --reuid=65534 --regid=65534 --clear-groups "$small/kobdrieft" plan said
  else
    "$small/kobdrieft" plan said
  fi
}
chmod 711 "$room"
chmod -R go+rX "$small" "$room/a place"
chmod 600 said
[ "$(id -u)" = 0 ] || chmod 000 said
expect 'a file that may not be read' 3 '' 'kobdrieft: cannot read said: permission denied' unreadable

echo "driver: $passed passed, $failed failed"
[ "$failed" -eq 0 ]
