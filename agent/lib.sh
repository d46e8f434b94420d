#!/usr/bin/env bash
# Makes what a C program needs, from libkobdrieft_c.a in STATICLIB-DIR, which has the four functions:
#     agent/lib.sh STATICLIB-DIR OUT-DIR
# OUT-DIR/libkobdrieft.a has the four functions under names that carry the header's version, and every other name hidden;
# OUT-DIR/kobdrieft.h is agent/kobdrieft.h with the texts of docs/REFUSALS.md in it. Both are put there when both are good.
# Status 3 for wrong use, 4 if something is missing or not as it must be.
set -euo pipefail

here=$(dirname -- "${BASH_SOURCE[0]}")
header=$here/kobdrieft.h
refusals=$here/../docs/REFUSALS.md

fail() { # TEXT [STATUS]
  printf 'lib.sh: %s\n' "$1" >&2
  exit "${2:-4}"
}

needs() {
  local tool file
  for tool in ld objcopy ar nm awk; do
    command -v "$tool" >/dev/null || fail "'$tool' is not on the PATH"
  done
  for file; do
    [ -f "$file" ] || fail "$file is missing"
  done
}

# ---- the four names

# What a name is defined as in the header.
defined() { # NAME
  awk -v name="$1" '$1 == "#define" && $2 == name { print $3 }' "$header" || fail "awk cannot read $header"
}

# They are made of the version in the header, which must map kobdrieft_check, kobdrieft_build, kobdrieft_stop and kobdrieft_split to them.
set_names() {
  local version name
  version=$(defined KOBDRIEFT_VERSION)
  [[ $version =~ ^[0-9]+$ ]] || fail "$header must have the line #define KOBDRIEFT_VERSION NUMBER once"
  check=kobdrieft_check_v$version
  build=kobdrieft_build_v$version
  stop=kobdrieft_stop_v$version
  split=kobdrieft_split_v$version
  for name in "$check" "$build" "$stop" "$split"; do
    [ "$(defined "${name%_v*}")" = "$name" ] || fail "$header must have the line #define ${name%_v*} $name once: its version is $version"
  done
}

# ---- the archive

# An object of one function of the archive and all that it calls there. It alone keeps a name for others to call, and gets a new one. The
# section removed is a hint to linkers that lists symbols by their place, which has changed.
object() { # NAME NEW-NAME
  local made=$work/$2.o
  ld -r --gc-sections --entry="$1" --whole-archive "$static" -o "$made" || fail "ld cannot take $1 from $static"
  objcopy --keep-global-symbol="$1" --remove-section=.llvm_addrsig "$made" || fail "objcopy cannot hide the names of $static"
  objcopy --redefine-sym "$1=$2" "$made" || fail "objcopy cannot rename $1 of $static"
}

# The names an archive gives to others, or those it takes from them.
given() { nm -g --defined-only "$1" | awk 'NF == 3 { print $3 }' | sort; }
taken() { nm -g --undefined-only "$1" | awk 'NF == 2 { print $2 }' | sort -u; }

# The four names and no other; nothing is called but the four memory functions.
as_said() { # ARCHIVE
  local names name
  names=$(given "$1") || fail "nm cannot read $1"
  [ "$names" = "$build"$'\n'"$check"$'\n'"$split"$'\n'"$stop" ] ||
    fail "the archive must define $build, $check, $split and $stop alone; it defines: ${names//$'\n'/ }"
  names=$(taken "$1") || fail "nm cannot read $1"
  for name in $names; do
    case $name in
    memcpy | memmove | memset | memcmp) ;;
    *) fail "the archive calls $name; it may call memcpy, memmove, memset and memcmp alone" ;;
    esac
  done
}

# Whether all four functions are there to be taken.
has_four() {
  local names name
  names=$(given "$static") || fail "nm cannot read $static"
  for name in check build stop split; do
    [[ $'\n'$names$'\n' == *$'\n'$name$'\n'* ]] ||
      fail "the archive must define $build, $check, $split and $stop alone; there is no $name in $static"
  done
}

archive() {
  has_four
  object check "$check"
  object build "$build"
  object stop "$stop"
  object split "$split"
  ar rcsD "$work/libkobdrieft.a" "$work/$check.o" "$work/$build.o" "$work/$stop.o" "$work/$split.o" ||
    fail "ar cannot write the archive"
  as_said "$work/libkobdrieft.a"
}

# ---- the header

# A case for each refusal: the numbers are those of kob_fault in the header, the texts are those of the tables in REFUSALS.md.
texts() {
  awk -F '|' '
    function bad(what) { print "lib.sh: docs/REFUSALS.md: " what > "/dev/stderr"; failed = 1; exit 1 }
    FNR == NR {
      if (match($0, /KOB_FAULT_[A-Z0-9_]+ = [0-9]+/)) {
        split(substr($0, RSTART, RLENGTH), parts, " = ")
        numbers[++count] = parts[2]
        wanted[parts[2]] = 1
      }
      next
    }
    /^\| *number *\| *what it means *\| *what to do *\|/ { inside = 1; next }
    !/^\|/ { inside = 0 }
    !inside || /^[-:| ]+$/ { next }
    NF != 5 || $2 !~ /^ *[0-9]+ *$/ || $3 ~ /^ *$/ { bad("line " FNR " is no row of number, what it means, what to do") }
    {
      number = $2 + 0
      text = $3
      if (!(number in wanted)) bad("number " number " is not in kob_fault of agent/kobdrieft.h")
      if (number in meaning) bad("number " number " is there twice")
      gsub(/`/, "", text)
      gsub(/^ +| +$/, "", text)
      gsub(/["\\?]/, "\\\\&", text)
      meaning[number] = text
    }
    END {
      if (failed) exit 1
      for (i = 1; i <= count; i++) if (!(numbers[i] in meaning)) bad("number " numbers[i] " is missing")
      for (i = 1; i <= count; i++) printf "    case %d: return \"%s\";\n", numbers[i], meaning[numbers[i]]
    }' "$header" "$refusals"
}

# The header, with the texts in place of the line that asks for them.
whole_header() { # TEXTS
  awk -v texts="$1" '
    $0 == "#include \"kobdrieft_texts.h\"" { places++; while ((getline line < texts) > 0) print line; next }
    { print }
    END { exit places != 1 }' "$header"
}

headers() {
  texts >"$work/texts" || exit 4 # it has said why
  whole_header "$work/texts" >"$work/kobdrieft.h" || fail "$header must have the line #include \"kobdrieft_texts.h\" once"
}

# ----

[ $# -eq 2 ] || fail "usage: agent/lib.sh STATICLIB-DIR OUT-DIR" 3
static=$1/libkobdrieft_c.a
out=$2
needs "$static" "$header" "$refusals"
set_names
mkdir -p -- "$out" || fail "cannot make $out"
work=$(mktemp -d -- "$out/.lib.XXXXXX") || fail "cannot write in $out"
trap 'rm -rf -- "$work"' EXIT
archive
headers
mv -f -- "$work/kobdrieft.h" "$work/libkobdrieft.a" "$out/"
