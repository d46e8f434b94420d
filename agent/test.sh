#!/usr/bin/env bash
# Tests agent/lib.sh, and builds and tests the C side against libkobdrieft.a and kobdrieft.h in LIBDIR, which it made:
#     agent/test.sh LIBDIR
# Prints a line for each group; the last is `agent: N passed, M failed`. Status 1 if anything failed, 3 for wrong use.
set -u
[ $# -eq 1 ] || { echo "usage: agent/test.sh LIBDIR" >&2; exit 3; }
here=$(cd "$(dirname "$0")" && pwd)
libs=$(cd "$1" && pwd) || exit 3
for file in libkobdrieft.a kobdrieft.h; do
  [ -f "$libs/$file" ] || { echo "agent: no $file in $libs" >&2; exit 3; }
done
archive=$libs/libkobdrieft.a
refusals=$here/../docs/REFUSALS.md
examples=$here/../examples
work=$(mktemp -d)
trap 'rm -rf "$work"' EXIT

# The interface's version, and the four names that carry it.
version=9
check=kobdrieft_check_v$version
build=kobdrieft_build_v$version
stop=kobdrieft_stop_v$version
split=kobdrieft_split_v$version
four=$build$'\n'$check$'\n'$split$'\n'$stop

cc=${CC:-cc}
cxx=${CXX:-c++}
strict=(-std=c99 -Wall -Wextra -Werror -pedantic -I "$libs")
sanitize=(-g -O1 "-fsanitize=address,undefined" -fno-sanitize-recover=all)
link=(-L "$libs" -lkobdrieft)
link_strict="-Wl,--fatal-warnings"

# ---- counting

total_passed=0 total_failed=0 passed=0 failed=0

# expect WHAT COMMAND...: one test, passed if the command succeeds.
expect() {
  local what=$1
  shift
  if "$@" >"$work/log" 2>&1; then
    passed=$((passed + 1))
  else
    failed=$((failed + 1))
    echo "failed: $what" >&2
    cat "$work/log" >&2
  fi
}

add() {
  total_passed=$((total_passed + $1))
  total_failed=$((total_failed + $2))
}

group() {
  echo "$1: $passed passed, $failed failed"
  add "$passed" "$failed"
  passed=0 failed=0
}

# run LABEL PROGRAM: a test program, whose groups are counted. One that ends badly counts as a failure.
run() {
  local label=$1 program=$2 line status
  "$program" >"$work/out"
  status=$?
  while IFS= read -r line; do
    echo "$label: $line"
    [[ $line =~ :\ ([0-9]+)\ passed,\ ([0-9]+)\ failed$ ]] && add "${BASH_REMATCH[1]}" "${BASH_REMATCH[2]}"
  done <"$work/out"
  if [ "$status" -ne 0 ]; then
    echo "$label: $(basename "$program") ended with status $status"
    add 0 1
  fi
}

# ---- the archive

# Nothing is called but the four memory functions, so no call allocates or does I/O.
only_memory() {
  local names
  names=$(nm -u "$archive" | awk 'NF == 2 { print $2 }')
  [ -n "$names" ] && ! grep -vE '^mem(cpy|move|set|cmp)$' <<<"$names"
}

# names ARCHIVE: what it defines for others.
names() {
  nm -g --defined-only "$1" | awk 'NF == 3 { print $3 }' | sort
}

exports_four() {
  [ "$(names "$archive")" = "$four" ]
}

# No byte that can be written, so no state.
no_data() {
  size "$archive" | awk 'NR > 1 && $2 + $3 > 0 { bad = 1 } END { exit bad }'
}

# takes_only NAME: whether a program that calls one of the four does not get the others too.
takes_only() {
  echo "void $1(void); int main(void) { $1(); }" >"$work/one.c"
  "$cc" "$work/one.c" "${link[@]}" "$link_strict" -o "$work/one" || return
  nm "$work/one" | grep " T kobdrieft_"
  [ "$(nm "$work/one" | awk '$3 ~ /^kobdrieft_/ { print $3 }')" = "$1" ]
}

# unlinked NAME LINKING...: whether something does not link, and the linker says that this name is not there.
unlinked() {
  local name=$1
  shift
  ! LC_ALL=C "$cc" "$@" -o "$work/unlinked" 2>"$work/said" && cat "$work/said" && grep undefined "$work/said" | grep -qw "$name"
}

# without_header NAME PARAMETERS ARGUMENTS: whether a program that declares one of the four by itself, under its name in C, does not
# link.
without_header() {
  printf '#include <stddef.h>\n#include <stdint.h>\nuint64_t %s(%s);\nint main(void) { return %s(%s) == 0; }\n' \
    "$1" "$2" "$1" "$3" >"$work/own.c"
  "$cc" "${strict[@]}" -c "$work/own.c" -o "$work/own.o" && unlinked "$1" "$work/own.o" "${link[@]}"
}

# without_version NAME CALL: whether a program with the header, which links, does not link with an archive of names without a version.
without_version() {
  mkdir -p "$work/plain-names"
  printf 'int %s(void) { return 0; }\n' kobdrieft_check kobdrieft_build kobdrieft_stop kobdrieft_split >"$work/names.c"
  printf '#include <kobdrieft.h>\nint main(void) { return %s == 0; }\n' "$2" >"$work/call.c"
  "$cc" -c "$work/names.c" -o "$work/names.o" && ar rc "$work/plain-names/libkobdrieft.a" "$work/names.o" &&
    "$cc" "${strict[@]}" -c "$work/call.c" -o "$work/call.o" && "$cc" "$work/call.o" "${link[@]}" -o "$work/call" &&
    unlinked "$1" "$work/call.o" -L "$work/plain-names" -lkobdrieft
}

# All of it, in a shared object that other programs may load anywhere.
shared() {
  "$cc" -shared -Wl,-z,text -Wl,--whole-archive "$archive" -Wl,--no-whole-archive "$link_strict" -o "$work/shared.so"
}

archives() {
  expect "it calls only memory functions" only_memory
  expect "it exports $build, $check, $split and $stop alone" exports_four
  expect "it has no data" no_data
  expect "the header's version is $version" grep -x "#define KOBDRIEFT_VERSION $version" "$libs/kobdrieft.h"
  expect "a program that only checks" takes_only "$check"
  expect "a program that only plans" takes_only "$build"
  expect "a program that only stops" takes_only "$stop"
  expect "a program that only splits" takes_only "$split"
  expect "a check without header and reserve" without_header kobdrieft_check 'const uint8_t *, size_t, const uint8_t *, size_t' \
    'NULL, 0, NULL, 0'
  expect "a build without header and reserve" without_header kobdrieft_build 'const uint8_t *, size_t, uint8_t *, size_t' \
    'NULL, 0, NULL, 0'
  expect "a stop without header and reserve" without_header kobdrieft_stop \
    'const uint8_t *, size_t, const uint8_t *, size_t, uint64_t, const uint8_t *, size_t, uint8_t *, size_t' \
    'NULL, 0, NULL, 0, 1, NULL, 0, NULL, 0'
  expect "a split without header and reserve" without_header kobdrieft_split \
    'const uint8_t *, size_t, const uint8_t *, size_t, uint8_t *, size_t' 'NULL, 0, NULL, 0, NULL, 0'
  expect "a check by an archive without versions" without_version "$check" 'kob_check(0, NULL, 0, NULL, 0)'
  expect "a build by an archive without versions" without_version "$build" 'kob_build(0, NULL, 0, NULL, 0)'
  expect "a stop by an archive without versions" without_version "$stop" 'kob_stop(0, NULL, 0, NULL, 0, 1, NULL, 0, NULL, 0)'
  expect "a split by an archive without versions" without_version "$split" 'kob_split(0, NULL, 0, NULL, 0, NULL, 0)'
  expect "a shared object" shared
  group "archive"
}

# ---- the texts

# Number and meaning of each row of the tables in REFUSALS.md.
documented() {
  local number meaning
  while IFS='|' read -r _ number meaning _; do
    [[ $number =~ ^\ *[0-9]+\ *$ ]] && read -r number <<<"$number" && read -r meaning <<<"$meaning" &&
      printf '%s %s\n' "$number" "${meaning//\`/}"
  done <"$refusals" | sort -n
}

# text_of NUMBER: what it means.
text_of() {
  documented | sed -n "s/^$1 //p"
}

# A program that prints a number and its text for each that has one.
texts_program() { # FOLDER-OF-HEADER
  cat >"$work/texts.c" <<'END'
#include <stdio.h>
#include <string.h>
#include <kobdrieft.h>
int main(void)
{
    for (unsigned number = 1; number < 1000; number++)
        if (strcmp(kob_fault_text(number), kob_fault_text(1000)) != 0)
            printf("%u %s\n", number, kob_fault_text(number));
    return 0;
}
END
  "$cc" -I "$1" "${strict[@]}" "$work/texts.c" -o "$work/texts"
}

texts_are_documented() {
  documented >"$work/documented"
  [ "$(wc -l <"$work/documented")" -ge 25 ] && "$work/texts" | diff "$work/documented" -
}

texts() {
  expect "a program of the texts" texts_program "$libs"
  expect "the texts are those of REFUSALS.md" texts_are_documented
  expect "nothing is left to include" test ! "$(grep -c kobdrieft_texts "$libs/kobdrieft.h")" -gt 0
  group "texts"
}

# ---- agent/lib.sh, in a small repository whose archive is made here

tree=$work/tree
static=$tree/static/libkobdrieft_c.a

# library CODE: an archive of this C code, with a section for each function as the library has it.
library() {
  echo "$1" >"$work/library.c"
  rm -f "$static"
  "$cc" -O0 -ffunction-sections -c "$work/library.c" -o "$work/library.o" && ar rc "$static" "$work/library.o"
}

# The functions of the small library as they should be; all four call `helper`, and each has one of its own.
helper='int helper(int number) { return number; }'
own_check='int helper_1(void) { return helper(1); } int check(void) { return helper_1(); }'
own_build='int helper_2(void) { return helper(2); } int build(void) { return helper_2(); }'
own_stop='int helper_3(void) { return helper(3); } int stop(void) { return helper_3(); }'
own_split='int helper_4(void) { return helper(4); } int split(void) { return helper_4(); }'

# without_own NAME CODE: the library with this code in the place of one of the four.
without_own() {
  local code=$helper name own
  for name in check build stop split; do
    own=own_$name
    [ "$name" = "$1" ] && code+=$'\n'$2 || code+=$'\n'${!own}
  done
  library "$code"
}

# The small repository as it should be.
plant() {
  rm -rf "$tree"
  mkdir -p "$tree/agent" "$tree/docs" "$tree/static"
  cp "$here/lib.sh" "$here/kobdrieft.h" "$tree/agent/"
  cp "$refusals" "$tree/docs/"
  library "$helper $own_check $own_build $own_stop $own_split"
}

lib() {
  "$tree/agent/lib.sh" "$tree/static" "$tree/out"
}

# makes: lib.sh leaves its two files and nothing else.
makes() {
  lib && [ "$(ls -A "$tree/out")" = $'kobdrieft.h\nlibkobdrieft.a' ]
}

# refuses TEXT COMMAND...: lib.sh ends with status 4 and one sentence that has this text, and OUT-DIR stays as it was.
refuses() {
  local text=$1 ended
  shift
  mkdir -p "$tree/out"
  echo before >"$tree/out/libkobdrieft.a"
  "$@" 2>"$work/said"
  ended=$?
  cat "$work/said"
  [ "$ended" -eq 4 ] && [ "$(wc -l <"$work/said")" -eq 1 ] && grep -qF -- "$text" "$work/said" &&
    [ "$(ls -A "$tree/out")" = libkobdrieft.a ] && [ "$(cat "$tree/out/libkobdrieft.a")" = before ]
}

# members ARCHIVE: each object of it and the functions that it has, whoever may call them.
members() {
  nm --defined-only -A "$1" | awk -F '[: ]+' '$4 == "t" || $4 == "T" { print $2, $5 }' | sort
}

# Each object has what its function calls, and no more.
own_code() {
  members "$tree/out/libkobdrieft.a" | diff - <(printf '%s\n' "$build.o "{helper,helper_2,"$build"} "$check.o "{helper,helper_1,"$check"} \
    "$split.o "{helper,helper_4,"$split"} "$stop.o "{helper,helper_3,"$stop"} | sort)
}

# Where a program has a `helper` too, all five are called.
helpers_apart() {
  cat >"$work/helpers.c" <<END
int $check(void);
int $build(void);
int $stop(void);
int $split(void);
int helper(void) { return 5; }
int main(void) { return $check() == 1 && $build() == 2 && $stop() == 3 && $split() == 4 && helper() == 5 ? 0 : 1; }
END
  "$cc" "$work/helpers.c" -L "$tree/out" -lkobdrieft -o "$work/helpers" && "$work/helpers"
}

# lib.sh on a PATH without one of its tools.
without() {
  local tool
  rm -rf "$work/tools"
  mkdir "$work/tools"
  for tool in bash env dirname mkdir mktemp mv rm sort ld objcopy ar nm awk; do
    [ "$tool" = "$1" ] || ln -s "$(command -v "$tool")" "$work/tools/$tool"
  done
  PATH=$work/tools lib
}

lib_archives() {
  local tool name
  plant
  expect "lib.sh makes two files" makes
  expect "lib.sh makes them again" makes
  expect "names of the four functions keep apart" helpers_apart
  expect "each of the four has its own code" own_code
  without_own split 'int check(void); int split(void) { return check() + 3; }'
  expect "a split that calls the check" makes
  expect "its names keep apart" helpers_apart
  for tool in ld objcopy ar nm awk; do
    plant
    expect "no $tool" refuses "'$tool' is not on the PATH" without "$tool"
  done
  expect "all tools" without none
  plant && rm "$static"
  expect "no libkobdrieft_c.a" refuses 'libkobdrieft_c.a is missing' lib
  plant && mv "$static" "$tree/static/librules.a"
  expect "an archive of another name" refuses 'libkobdrieft_c.a is missing' lib
  plant && rm "$static" && mkdir "$static"
  expect "a folder for an archive" refuses 'libkobdrieft_c.a is missing' lib
  plant && rm -r "$tree/static"
  expect "no folder of the archive" refuses 'libkobdrieft_c.a is missing' lib
  for name in check build stop split; do
    plant && without_own $name "int ${name}s(void) { return 1; }"
    expect "no $name in libkobdrieft_c.a" refuses "must define $build, $check, $split and $stop alone" lib
  done
  plant && without_own build 'int puts(const char *); int build(void) { return puts(""); }'
  expect "a planner that prints" refuses 'calls puts' lib
  plant && without_own check '#include <string.h>
int check(void *a, void *b) { return memcpy(a, b, 99) == a; }'
  expect "a checker that copies" makes
  plant && without_own stop '#include <stdlib.h>
int stop(void) { void *room = malloc(9); free(room); return room != NULL; }'
  expect "a stop that allocates" refuses 'the archive calls ' lib
  plant && without_own split 'int checked(void); int split(void) { return checked(); }'
  expect "a split that lacks its check" refuses 'calls checked' lib
  expect "lib.sh with one argument" wrong_use
}

wrong_use() {
  "$tree/agent/lib.sh" "$tree/static"
  [ $? -eq 3 ]
}

# edited FILE SED-SCRIPT TEXT: what lib.sh says when a file is otherwise.
edited() {
  plant
  sed -i "$2" "$tree/$1"
  expect "$1 changed by $2" refuses "$3" lib
}

# All names must carry the version that the header states.
lib_names() {
  local header=agent/kobdrieft.h line='must have the line #define'
  edited $header '/^#define KOBDRIEFT_VERSION /d' "$line KOBDRIEFT_VERSION NUMBER once"
  edited $header '/^#define KOBDRIEFT_VERSION /p' "$line KOBDRIEFT_VERSION NUMBER once"
  edited $header 's/^\(#define KOBDRIEFT_VERSION\) .*/\1/' "$line KOBDRIEFT_VERSION NUMBER once"
  edited $header 's/^\(#define KOBDRIEFT_VERSION\) .*/\1 seven/' "$line KOBDRIEFT_VERSION NUMBER once"
  edited $header 's/^#define KOBDRIEFT_VERSION .*/&0/' "$line kobdrieft_check ${check}0 once"
  edited $header 's/^\(#define kobdrieft_check\) .*/\1 kobdrieft_check_v1/' "$line kobdrieft_check $check once"
  edited $header 's/^#define kobdrieft_build .*/&0/' "$line kobdrieft_build $build once"
  edited $header "s/^\\(#define kobdrieft_build\\) .*/\\1 $check/" "$line kobdrieft_build $build once"
  edited $header '/^#define kobdrieft_build /d' "$line kobdrieft_build $build once"
  edited $header '/^#define kobdrieft_build /p' "$line kobdrieft_build $build once"
  edited $header 's/^#define kobdrieft_stop .*/&0/' "$line kobdrieft_stop $stop once"
  edited $header "s/^\\(#define kobdrieft_stop\\) .*/\\1 $check/" "$line kobdrieft_stop $stop once"
  edited $header '/^#define kobdrieft_stop /d' "$line kobdrieft_stop $stop once"
  edited $header '/^#define kobdrieft_stop /p' "$line kobdrieft_stop $stop once"
  edited $header 's/^#define kobdrieft_split .*/&0/' "$line kobdrieft_split $split once"
  edited $header "s/^\\(#define kobdrieft_split\\) .*/\\1 $stop/" "$line kobdrieft_split $split once"
  edited $header '/^#define kobdrieft_split /d' "$line kobdrieft_split $split once"
  edited $header '/^#define kobdrieft_split /p' "$line kobdrieft_split $split once"
  plant && sed -i 's/^\(#define KOBDRIEFT_VERSION \).*/\1987/; s/^\(#define kobdrieft_.*_v\).*/\1987/' "$tree/$header"
  expect "another version" makes
  expect "the names of another version" test "$(names "$tree/out/libkobdrieft.a")" = "${four//_v$version/_v987}"
}

lib_texts() {
  local page=docs/REFUSALS.md
  edited $page '/^| 23 |/d' 'number 23 is missing'
  edited $page '/^| 1 |/d' 'number 1 is missing'
  edited $page '/^| 7 |/d' 'number 7 is missing'
  edited $page '/^| 19 |/d' 'number 19 is missing'
  edited $page '/^| 20 |/d' 'number 20 is missing'
  edited $page '/^| 21 |/d' 'number 21 is missing'
  edited $page '/^| 22 |/d' 'number 22 is missing'
  edited $page '/^| 33 |/d' 'number 33 is missing'
  edited $page '/^| 7 |/p' 'number 7 is there twice'
  edited $page 's/^| 7 |/| 8 |/' 'number 8 is there twice'
  edited $page 's/^| 7 |/| 99 |/' 'number 99 is not in kob_fault'
  edited $page 's/^| 7 | [^|]*|/| 7 | |/' 'is no row'
  edited $page 's/^| 7 |/| 7 | more |/' 'is no row'
  edited $page 's/^| 7 |/| seven |/' 'is no row'
  edited $page 's/what it means/meaning/' 'number 23 is missing'
  edited agent/kobdrieft.h '/KOB_FAULT_BEFORE/d' 'number 33 is not in kob_fault'
  edited agent/kobdrieft.h '/KOB_FAULT_MARK/d' 'number 21 is not in kob_fault'
  edited agent/kobdrieft.h '/kobdrieft_texts/d' 'must have the line'
  edited agent/kobdrieft.h '/kobdrieft_texts/p' 'must have the line'
}

# A later number, and all that needs care in a C string.
later_text() {
  plant
  sed -i 's/^    KOB_FAULT_STOP_BUFFER = 22/&,\n    KOB_FAULT_LATER_2 = 934/' "$tree/agent/kobdrieft.h"
  # shellcheck disable=SC2016
  printf '\n| number | what it means | what to do |\n|--:|---|---|\n| 934 | %s | x |\n' \
    'A `code` "quote", a \n, 100% of ??/ & what?' >>"$tree/docs/REFUSALS.md"
  lib && texts_program "$tree/out" && "$work/texts" >"$work/said" && cat "$work/said" &&
    [ "$(tail -n 1 "$work/said")" = '934 A code "quote", a \n, 100% of ??/ & what?' ] &&
    [ "$(head -n -1 "$work/said")" = "$(documented)" ]
}

lib_tests() {
  lib_archives
  lib_names
  lib_texts
  expect "a later number" later_text
  group "lib.sh"
}

# ---- building

# program LABEL NAME SOURCES... -- FLAGS...: builds a program from files of this folder.
program() {
  local label=$1 name=$2 sources=()
  shift 2
  while [ "$1" != -- ]; do
    sources+=("$here/$1")
    shift
  done
  shift
  expect "$label $name" "$cc" "${strict[@]}" "$@" "${sources[@]}" "${link[@]}" "$link_strict" -o "$work/$label/$name"
}

# builds LABEL FLAGS...: the agent, and the tests of the header.
builds() {
  local label=$1
  shift
  mkdir -p "$work/$label"
  program "$label" agent agent.c -- "$@"
  program "$label" test_header test_header.c test_common.c test_pages.c -- "$@"
  program "$label" test_reader test_reader.c test_common.c test_pages.c -- "$@"
  program "$label" test_reserve test_reserve.c test_common.c -- "$@"
  program "$label" test_before test_before.c test_common.c -- "$@"
  program "$label" test_stop test_stop.c test_common.c test_pages.c -- "$@"
  program "$label" test_split test_split.c test_common.c test_pages.c -- "$@"
  program "$label" test_names test_names.c test_common.c -- "$@"
  group "$label: built without a warning"
}

# The test of threads and stacks, and the example of README.md.
more_builds() {
  local standard
  program plain test_threads test_threads.c test_common.c -- -O2 -pthread
  # shellcheck disable=SC2016
  sed -n '/^```c$/,/^```$/p' "$here/README.md" | sed '1d;$d' >"$work/example.c"
  for standard in c17 c11 c99; do
    expect "the example as $standard" "$cc" "${strict[@]}" -std=$standard "$work/example.c" "${link[@]}" -o "$work/example"
  done
  expect "the example on A" example_says $'steps 3, moves 3, accepted\n1: VM 0 from 0 to 2\n2: VM 1 from 1 to 0\n3: VM 0 from 2 to 1' "$work/a"
  expect "the example, blocked" example_says 'steps 0, moves 0, blocked' "$work/stuck"
  expect "the example, refused" example_says "$(text_of 6)" "$work/damaged"
  group "threads and example: built"
}

# Whether the example prints just this.
example_says() {
  local said
  said=$("$work/example" <"$2")
  echo "$said"
  [ "$said" = "$1" ]
}

cplusplus() {
  local standard
  if ! command -v "$cxx" >/dev/null; then
    echo "C++: skipped, no compiler"
    return
  fi
  cat >"$work/header.cc" <<'END'
#include <kobdrieft.h>

static bool refuses_nothing()
{
    unsigned char out[KOB_BUILD_BUFFER];
    return kob_refusal_number(kob_build(0, nullptr, 0, out, sizeof out)) == KOB_FAULT_CLUSTER_SHORT
           && kob_refusal_number(kob_check(0, nullptr, 0, nullptr, 0)) == KOB_FAULT_CLUSTER_SHORT
           && kob_refusal_number(kob_stop(0, nullptr, 0, nullptr, 0, 1, nullptr, 0, out, sizeof out))
                  == KOB_FAULT_CLUSTER_SHORT
           && kob_refusal_number(kob_split(0, nullptr, 0, nullptr, 0, out, sizeof out)) == KOB_FAULT_CLUSTER_SHORT
           && kob_fault_text(KOB_FAULT_CLUSTER_SHORT)[0] != 0;
}

static bool refuses_a_reserve()
{
    unsigned char bytes[1] = {0}, out[1] = {0};
    return kob_refusal_number(kobdrieft_build(KOB_MAX_RESERVE + 1, bytes, 1, out, 1)) == KOB_FAULT_RESERVE
           && kob_refusal_number(kobdrieft_check(KOB_MAX_RESERVE + 1, bytes, 1, out, 1)) == KOB_FAULT_RESERVE
           && kob_refusal_number(kobdrieft_stop(KOB_MAX_RESERVE + 1, bytes, 1, bytes, 1, 1, bytes, 1, out, 1))
                  == KOB_FAULT_RESERVE
           && kob_refusal_number(kobdrieft_split(KOB_MAX_RESERVE + 1, bytes, 1, bytes, 1, out, 1))
                  == KOB_FAULT_RESERVE;
}

static bool reads_a_plan()
{
    const unsigned char plan[] = {2, 0, 0, 0, 15, 0, 1, 0, 2, 7, 8, 9, 10, 11, 12};
    kob_reader reader;
    unsigned moves, vm, source, destination;
    return kob_read_start(&reader, plan, sizeof plan) && kob_read_step(&reader, &moves)
           && kob_read_move_from(&reader, &vm, &source, &destination) && vm == 7 && source == 8
           && destination == 9 && kob_read_move(&reader, &vm, &destination) && vm == 10 && destination == 12
           && !kob_read_step(&reader, &moves) && kob_read_whole(&reader);
}

int main()
{
    return refuses_nothing() && refuses_a_reserve() && reads_a_plan() ? 0 : 1;
}
END
  for standard in c++11 c++17 c++20; do
    expect "the header as $standard" "$cxx" -std=$standard -Wall -Wextra -Werror -pedantic -I "$libs" "$work/header.cc" \
      "${link[@]}" -o "$work/header"
    expect "calls from $standard" "$work/header"
  done
  group "C++"
}

# ---- the agent

# record FILE HEX: a file of these bytes.
record() {
  local pair
  for pair in $(fold -w 2 <<<"${2//[$' \n']/}"); do
    # shellcheck disable=SC2059
    printf "\\x$pair"
  done >"$1"
}

# padded FILE HEX LENGTH: the same, with zeros up to a length.
padded() {
  record "$1" "$2"
  truncate -s "$3" "$1"
}

files() {
  local nodes='0000040064 0000040064' vms='0000030032 00 01 0000020032 01 00'
  record "$work/a" "01 00000028 0003 0002 0000 $nodes 0000040064 $vms"
  record "$work/plan" '02 00000016 0003 0001 00 00 02 0001 01 01 00 0001 00 02 01'
  record "$work/stuck" "01 00000028 0003 0002 0000 $nodes 0000010064 $vms"
  record "$work/five" "01 00000028 0003 0002 0000 0000050064 0000050064 0000050064 $vms"
  record "$work/both" '01 0000000d 0001 0002 00 01 01 00'
  record "$work/singles" '01 0000000f 0002 0001 00 01 0001 01 00'
  record "$work/half" '01 0000002f 0003 0003 0000 0000040064 0000020064 0000010064
    000002000a 02 00 000002000a 01 00 000002000a 00 01'
  record "$work/half-plan" '02 0000000c 0001 0001 00 02 00'
  record "$work/no-steps" '02 00000007 0000'
  record "$work/no-steps-1" '01 00000007 0000'
  record "$work/home" "01 00000028 0003 0002 0000 $nodes 0000040064 0000030032 01 01 0000020032 00 00"
  record "$work/damaged" "01 00000028 0003 0002 0000 $nodes 0000040064 0000000032 00 01 0000020032 01 00"
  record "$work/overfull" "01 00000028 0003 0002 0000 0000010064 0000040064 0000040064 $vms"
  padded "$work/long" "01 00000028 0003 0002 0000 $nodes 0000040064 $vms" 70000
  padded "$work/over" '01 00010000 0003 0002 0000' 65536
  padded "$work/most" '01 0000ffff 0003 0002 0000' 65535
  : >"$work/empty"
}

# says STATUS TEXT ARGUMENT...: whether the agent ends with a status and says a text.
says() {
  local wanted=$1 text=$2 status
  shift 2
  "$agent" "$@" >"$work/said" 2>&1
  status=$?
  cat "$work/said"
  echo "status $status"
  [ "$status" -eq "$wanted" ] && grep -qF -- "$text" "$work/said"
}

# keeps STATUS TEXT ARGUMENT...: the same, and the file to be written, behind the arguments, stays as it was.
keeps() {
  echo before >"$work/kept"
  says "$@" "$work/kept" && [ "$(cat "$work/kept")" = before ]
}

# writes STATUS TEXT RECORD ARGUMENT...: the same, and the file is then that record.
writes() {
  local wanted=$1 text=$2 record=$3
  shift 3
  echo before >"$work/got"
  says "$wanted" "$text" "$@" "$work/got" && cmp "$work/got" "$record"
}

# Cluster A through a pipe, in two pieces.
piped() {
  { head -c 10 "$work/a"; sleep 0.1; tail -c +11 "$work/a"; } |
    writes 0 'steps 3, moves 3, cost 16' "$work/plan" /dev/stdin
}

# prints LINES ARGUMENT...: whether these are the agent's lines for moves.
prints() {
  local lines=$1
  shift
  "$agent" "$@" "$work/got" >"$work/said"
  cat "$work/said"
  [ "$(tail -n +2 "$work/said")" = "$lines" ]
}

# The agent's first line as the planning program prints it.
planning_line() {
  head -n 1 "$1" | sed -E 's/^agent: (plan|blocked): (steps [0-9]+), (moves [0-9]+), (cost [0-9]+);.*/\1 \2 \3 \4/
    s/^agent: refused, number ([0-9]+); .*/refused \1 step 0/'
}

# as_expected NAME: whether the agent says of an example what the planning program does, and ends as it should. NAME.reserve-R is cluster
# NAME at reserve R.
as_expected() {
  local name=$1 cluster=$1 options=() status wanted=0
  if [[ $name =~ ^(.+)\.reserve-([0-9]+)$ ]]; then
    cluster=${BASH_REMATCH[1]}
    options=(--reserve "${BASH_REMATCH[2]}")
  fi
  "$agent" "${options[@]}" "$examples/$cluster.cluster" "$work/got" >"$work/said"
  status=$?
  case $(cat "$examples/$name.expected") in
  blocked*) wanted=1 ;;
  refused*) wanted=2 ;;
  esac
  [ "$status" -eq "$wanted" ] && { planning_line "$work/said"; tail -n +2 "$work/said"; } | diff "$examples/$name.expected" -
}

agent_moves() {
  local expected
  expect "A's moves" prints $'1 0 0 2\n2 1 1 0\n3 0 2 1' "$work/a"
  expect "two moves in a step" prints $'1 0 0 1\n1 1 1 0' "$work/five"
  expect "moves, then blocked" prints '1 0 2 0' "$work/half"
  expect "moves, then blocked, kept" prints '1 0 2 0' --keep-blocked "$work/half"
  expect "no moves" prints '' "$work/stuck"
  expect "refused" prints '' "$work/damaged"
  for expected in "$examples"/*.expected; do
    expect "$expected" as_expected "$(basename "$expected" .expected)"
  done
}

agent_answers() {
  expect "A is planned" writes 0 'plan: steps 3, moves 3, cost 16; written' "$work/plan" "$work/a"
  expect "A from a pipe" piped
  expect "node 2 memory 1" keeps 1 'blocked: steps 0, moves 0, cost 0; nothing written' "$work/stuck"
  expect "blocked, kept" writes 1 'these steps written' "$work/no-steps" --keep-blocked "$work/stuck"
  expect "blocked after a step" keeps 1 'blocked: steps 1, moves 1, cost 2; nothing written' "$work/half"
  expect "blocked after a step, kept" writes 1 'these steps written' "$work/half-plan" --keep-blocked "$work/half"
  expect "a plan, blocked kept" writes 0 'plan: steps 3' "$work/plan" --keep-blocked "$work/a"
  expect "memory 0" keeps 2 "refused, number 6; nothing written. $(text_of 6)" "$work/damaged"
  expect "target overfull" keeps 2 'refused, number 8; nothing written. ' "$work/overfull"
  expect "an empty file" keeps 2 'refused, number 1; nothing written. ' "$work/empty"
  expect "70,000 bytes" keeps 2 'refused, number 3; nothing written. ' "$work/long"
  expect "65,536 bytes, stated" keeps 2 'refused, number 3; nothing written. ' "$work/over"
  expect "65,535 bytes, stated" keeps 2 'refused, number 5; nothing written. ' "$work/most"
}

# at_zero CLUSTER: whether the agent says and writes at reserve 0 what it does without the option.
at_zero() {
  local status
  echo before | tee "$work/got" >"$work/kept"
  "$agent" --keep-blocked "$1" "$work/got" >"$work/without"
  status=$?
  "$agent" --reserve 0 --keep-blocked "$1" "$work/kept" >"$work/said"
  [ $? -eq "$status" ] && sed "s|$work/kept|$work/got|" "$work/said" | diff "$work/without" - && cmp "$work/got" "$work/kept"
}

# Of memory 4, A's nodes have 3 at reserve 25, and 2 at 26; VM 0 needs 3.
agent_reserves() {
  local name reserve
  for name in a five stuck half damaged overfull empty long; do
    expect "$name at reserve 0" at_zero "$work/$name"
  done
  for reserve in 0 1 10 25 00000000000000000000025; do
    expect "A at reserve $reserve" writes 0 'plan: steps 3, moves 3, cost 16; written' "$work/plan" --reserve $reserve "$work/a"
  done
  for reserve in 26 90; do
    expect "A at reserve $reserve" keeps 2 "agent: refused, number 8; nothing written. $(text_of 8)" --reserve $reserve "$work/a"
  done
  for reserve in 91 256 4294967306 18446744073709551615 18446744073709551616 18446744073709551626 999999999999999999999999; do
    expect "A at reserve $reserve" keeps 2 "agent: refused, number 23; nothing written. $(text_of 23)" --reserve $reserve "$work/a"
  done
  for reserve in '' -1 +5 10x x10 ' 10' '10 ' 0x10 1e1 10.0 10% - --; do
    expect "A at reserve '$reserve'" keeps 3 'usage: ' --reserve "$reserve" "$work/a"
  done
  expect "memory 5 at reserve 1" writes 0 'plan: steps 3, moves 3, cost 16; written' "$work/plan" --reserve 1 "$work/five"
  expect "an empty file at reserve 91" keeps 2 'refused, number 23; nothing written. ' --reserve 91 "$work/empty"
  expect "memory 0 at reserve 91" keeps 2 'refused, number 23; nothing written. ' --reserve 91 "$work/damaged"
  expect "a missing file at reserve 91" keeps 3 'cannot read' --reserve 91 "$work/nowhere"
  expect "both options" writes 1 'these steps written' "$work/no-steps" --reserve 10 --keep-blocked "$work/stuck"
  expect "the other one first" writes 1 'these steps written' "$work/no-steps" --keep-blocked --reserve 10 "$work/stuck"
  expect "two reserves" keeps 3 'usage: ' --reserve 10 --reserve 10 "$work/a"
  expect "no percent" says 3 'usage: ' "$work/a" "$work/got" --reserve
  expect "a percent in the same word" keeps 3 'usage: ' --reserve=10 "$work/a"
}

agent_faults() {
  expect "a missing file" keeps 3 'cannot read' "$work/nowhere"
  expect "a folder" keeps 3 'cannot read' "$work"
  expect "no folder to write to" says 3 'cannot write' "$work/a" "$work/nowhere/plan"
  if [ -c /dev/full ]; then
    expect "a full disk" says 3 'cannot write' "$work/a" /dev/full
    expect "nowhere to print a plan" unheard "$work/a"
    expect "nowhere to print a refusal" unheard "$work/damaged"
  fi
  expect "no arguments" says 3 'usage: '
  expect "one argument" says 3 'usage: ' "$work/a"
  expect "three arguments" keeps 3 'usage: ' "$work/a" "$work/got"
  expect "an unknown option" keeps 3 'usage: ' --force "$work/a"
}

# unheard ARGUMENT...: whether the agent says that its lines got lost.
unheard() {
  "$agent" "$@" "$work/got" >/dev/full 2>"$work/said"
  [ $? -eq 3 ] && grep -F 'cannot write standard output' "$work/said"
}

# stopped MEMORY PLACES TEXT ARGUMENT...: whether the agent stops a plan for A with this memory on each node, says so, and writes its record
# with the two VMs on these nodes.
stopped() {
  local memory=$1 places=$2 text=$3
  shift 3
  record "$work/left" "01 00000028 0003 0002 0000 0000${memory}0064 0000${memory}0064 0000${memory}0064
    0000030032 ${places% *} 01 0000020032 ${places#* } 00"
  writes 0 "agent: stopped: $text; written to $work/got" "$work/left" "$@"
}

# What the agent said of a stop, as the examples have it.
stopped_line() {
  if grep -q '^agent: stopped: ' "$1"; then
    echo "stopped length $(wc -c <"$work/got" | tr -d ' ')"
  else
    sed -E 's/^agent: refused, number ([0-9]+), step ([0-9]+); .*/refused \1 step \2/
      s/^agent: refused, number ([0-9]+); .*/refused \1 step 0/' "$1"
  fi
}

# stopped_as NAME: whether the agent says of an example what it must, and writes its record or, if refused, nothing. NAME is
# CLUSTER.stop-STEP-MARKS or CLUSTER.reserve-R.stop-STEP-MARKS.
stopped_as() {
  local name=$1 after=$examples/$1.after options status wanted=0
  [[ $name =~ ^(.+)\.stop-([0-9]+)-([0-9]+)$ ]] || return
  name=${BASH_REMATCH[1]} options=(--stop "${BASH_REMATCH[2]}" "${BASH_REMATCH[3]}")
  if [[ $name =~ ^(.+)\.reserve-([0-9]+)$ ]]; then
    name=${BASH_REMATCH[1]}
    options+=(--reserve "${BASH_REMATCH[2]}")
  fi
  echo before | tee "$work/kept" >"$work/got"
  "$agent" "${options[@]}" "$examples/$name.cluster" "$examples/$name.plan" "$work/got" >"$work/said"
  status=$?
  grep -q '^refused' "$examples/$1.stopped" && wanted=2 after=$work/kept
  [ "$status" -eq "$wanted" ] && stopped_line "$work/said" | diff "$examples/$1.stopped" - && cmp "$work/got" "$after"
}

agent_stops() {
  local example
  expect "A, step 1 ended" stopped 04 '02 01' 'step 1, 1 of 1 moves ended' --stop 1 1 "$work/a" "$work/plan"
  expect "A, step 1 called back" stopped 04 '00 01' 'step 1, 0 of 1 moves ended' --stop 1 0 "$work/a" "$work/plan"
  expect "A, step 3 called back" stopped 04 '02 00' 'step 3, 0 of 1 moves ended' --stop 3 0 "$work/a" "$work/plan"
  expect "both, one ended" stopped 05 '00 00' 'step 1, 1 of 2 moves ended' --stop 1 01 "$work/five" "$work/both"
  expect "both, the other ended" stopped 05 '01 01' 'step 1, 1 of 2 moves ended' --stop 1 10 "$work/five" "$work/both"
  expect "both ended" stopped 05 '01 00' 'step 1, 2 of 2 moves ended' --stop 1 11 "$work/five" "$work/both"
  expect "zeros before a step" stopped 04 '02 00' 'step 2, 1 of 1 moves ended' --stop 000000000000000000002 1 "$work/a" "$work/plan"
  expect "options behind" stopped_behind
  expect "at reserve 25" stopped 04 '02 01' 'step 1, 1 of 1 moves ended' --reserve 25 --stop 1 1 "$work/a" "$work/plan"
  expect "the reserve behind" stopped 04 '02 01' 'step 1, 1 of 1 moves ended' --stop 1 1 --reserve 25 "$work/a" "$work/plan"
  expect "over the cluster record itself" stopped_over
  expect "256 moves, all ended" stopped_all "$work/all"
  expect "planned again" planned_again
  expect "one line" one_line
  for example in "$examples"/*.stopped; do
    expect "$example" stopped_as "$(basename "$example" .stopped)"
  done
  agent_stop_refusals
  agent_stop_use
}

# The options may stand behind the files.
stopped_behind() {
  echo before >"$work/got"
  says 0 'stopped: step 1, 1 of 1' "$work/a" "$work/plan" "$work/got" --reserve 1 --stop 1 1 &&
    [ "$(od -An -tu1 -j31 -N1 "$work/got" | tr -d ' ')" = 2 ]
}

# CLUSTER-OUT may be CLUSTER: it is read before it is written.
stopped_over() {
  cp "$work/a" "$work/over-itself"
  says 0 'stopped: step 1' --stop 1 1 "$work/over-itself" "$work/plan" "$work/over-itself" &&
    [[ $(cmp -l "$work/a" "$work/over-itself") =~ ^\ *32\ +0\ +2$ ]]
}

# A step of 256 moves takes 256 marks, and no other number.
stopped_all() {
  local ended vms moves left
  ended=$(printf '1%.0s' {1..256})
  vms=$(printf '0000010000 00 01 %.0s' {1..256})
  left=$(printf '0000010000 01 01 %.0s' {1..256})
  moves=$(printf '%02x 01 ' {0..255})
  record "$1-vms" "01 00000715 0002 0100 0000 0010000000 0010000000 $vms"
  record "$1-left" "01 00000715 0002 0100 0000 0010000000 0010000000 $left"
  record "$1-plan" "01 00000209 0001 0100 $moves"
  writes 0 'stopped: step 1, 256 of 256 moves ended' "$1-left" --stop 1 "$ended" "$1-vms" "$1-plan" &&
    keeps 2 'refused, number 20; ' --stop 1 "${ended}1" "$1-vms" "$1-plan" &&
    keeps 2 'refused, number 20; ' --stop 1 "${ended%1}" "$1-vms" "$1-plan"
}

# From where VM 0 has stepped aside, the rest of A's plan is planned.
planned_again() {
  says 0 'stopped: step 1' --stop 1 1 "$work/a" "$work/plan" "$work/left" &&
    says 0 'plan: steps 2, moves 2, cost 7; written' "$work/left" "$work/got" && prints $'1 1 1 0\n2 0 2 1' "$work/left"
}

one_line() {
  "$agent" --stop 1 1 "$work/a" "$work/plan" "$work/got" >"$work/said" && [ "$(wc -l <"$work/said")" -eq 1 ]
}

agent_stop_refusals() {
  local word
  for word in 0 4 65537 4294967297 18446744073709551615 18446744073709551616 18446744073709551617 99999999999999999999999; do
    expect "step $word" keeps 2 "agent: refused, number 20; nothing written. $(text_of 20)" --stop $word 1 "$work/a" "$work/plan"
  done
  for word in 00 11 111 "$(printf '0%.0s' {1..256})" "$(printf '1%.0s' {1..257})" "$(printf '1%.0s' {1..5000})"; do
    expect "${#word} marks for one" keeps 2 'refused, number 20; ' --stop 1 "$word" "$work/a" "$work/plan"
  done
  for word in 2 3 9; do
    expect "mark $word" keeps 2 "agent: refused, number 21; nothing written. $(text_of 21)" --stop 1 $word "$work/a" "$work/plan"
  done
  expect "one mark for two" keeps 2 'refused, number 20; ' --stop 1 1 "$work/five" "$work/both"
  expect "marks of 1 and 2" keeps 2 'refused, number 21; ' --stop 1 12 "$work/five" "$work/both"
  expect "a step of the plan refused" keeps 2 "agent: refused, number 17, step 1; nothing written. $(text_of 17)" \
    --stop 1 11 "$work/a" "$work/both"
  expect "the same at reserve 1" keeps 2 'refused, number 17, step 1; ' --reserve 1 --stop 1 11 "$work/five" "$work/both"
  expect "an incomplete plan" keeps 2 "agent: refused, number 19; nothing written. $(text_of 19)" --stop 1 1 "$work/half" "$work/half-plan"
  expect "an empty plan" keeps 2 'refused, number 19; ' --stop 1 1 "$work/a" "$work/empty"
  expect "no steps" keeps 2 'refused, number 19; ' --stop 1 1 "$work/a" "$work/no-steps"
  expect "a damaged cluster" keeps 2 'refused, number 6; ' --stop 1 1 "$work/damaged" "$work/plan"
  expect "an empty cluster" keeps 2 'refused, number 1; ' --stop 1 1 "$work/empty" "$work/plan"
  expect "files swapped" keeps 2 'refused, number 5; ' --stop 1 1 "$work/plan" "$work/a"
  expect "a cluster as plan" keeps 2 'refused, number 14; ' --stop 1 1 "$work/a" "$work/a"
  expect "a plan of 70,000 bytes" keeps 2 'refused, number 13; ' --stop 1 1 "$work/a" "$work/long"
  expect "reserve 26" keeps 2 'refused, number 8; ' --reserve 26 --stop 1 1 "$work/a" "$work/plan"
  expect "reserve 91" keeps 2 'refused, number 23; ' --reserve 91 --stop 0 2 "$work/empty" "$work/empty"
}

agent_stop_use() {
  local word
  for word in '' -1 +1 1x x ' 1' '1 ' 0x1 1.0 - --; do
    expect "step '$word'" keeps 3 'usage: ' --stop "$word" 1 "$work/a" "$work/plan"
    expect "marks '$word'" keeps 3 'usage: ' --stop 1 "$word" "$work/a" "$work/plan"
  done
  expect "marks apart" keeps 3 'usage: ' --stop 1 0 1 "$work/five" "$work/both"
  expect "two files" keeps 3 'usage: ' --stop 1 1 "$work/a"
  expect "four files" keeps 3 'usage: ' --stop 1 1 "$work/a" "$work/plan" "$work/got"
  expect "no marks" says 3 'usage: ' "$work/a" "$work/plan" "$work/got" --stop 1
  expect "no step" says 3 'usage: ' "$work/a" "$work/plan" "$work/got" --stop
  expect "stopped twice" keeps 3 'usage: ' --stop 1 1 --stop 1 1 "$work/a" "$work/plan"
  expect "blocked steps of a stop" keeps 3 'usage: ' --keep-blocked --stop 1 1 "$work/a" "$work/plan"
  expect "a step in the same word" keeps 3 'usage: ' --stop=1 1 "$work/a" "$work/plan"
  expect "a missing cluster" keeps 3 "cannot read $work/nowhere" --stop 1 1 "$work/nowhere" "$work/plan"
  expect "a missing plan" keeps 3 "cannot read $work/nowhere" --stop 1 1 "$work/a" "$work/nowhere"
  expect "a folder as plan" keeps 3 'cannot read' --stop 1 1 "$work/a" "$work"
  expect "no folder to write to" says 3 'cannot write' --stop 1 1 "$work/a" "$work/plan" "$work/nowhere/cluster"
  if [ -c /dev/full ]; then
    expect "a full disk" says 3 'cannot write' --stop 1 1 "$work/a" "$work/plan" /dev/full
    expect "nowhere to print a stop" unheard --stop 1 1 "$work/a" "$work/plan"
    expect "nowhere to print its refusal" unheard --stop 0 1 "$work/a" "$work/plan"
  fi
}

# What the agent said of a split, as the examples have it.
split_line() {
  sed -E 's/^agent: divided: (steps [0-9]+), (cost [0-9]+); .*/divided \1 \2/
    s/^agent: refused, number ([0-9]+), step ([0-9]+); .*/refused \1 step \2/
    s/^agent: refused, number ([0-9]+); .*/refused \1 step 0/' "$1"
}

# divided_as EXPECTED: whether the agent says of an example's plan what this file has, and writes its record or, if refused, nothing.
# EXPECTED is NAME.split or NAME.reserve-R.split, or such a .verdict, a refusal.
divided_as() {
  local name after=${1%.split}.single options=(--split) status wanted=0
  name=$(basename "${1%.*}")
  if [[ $name =~ ^(.+)\.reserve-([0-9]+)$ ]]; then
    name=${BASH_REMATCH[1]}
    options+=(--reserve "${BASH_REMATCH[2]}")
  fi
  echo before | tee "$work/kept" >"$work/got"
  "$agent" "${options[@]}" "$examples/$name.cluster" "$examples/$name.plan" "$work/got" >"$work/said"
  status=$?
  grep -q '^refused' "$1" && wanted=2 after=$work/kept
  [ "$status" -eq "$wanted" ] && split_line "$work/said" | diff "$1" - && cmp "$work/got" "$after"
}

agent_splits() {
  local example
  expect "A's plan" writes 0 "agent: divided: steps 3, cost 16; written to $work/got" "$work/plan" --split "$work/a" "$work/plan"
  expect "both at once" writes 0 'divided: steps 2, cost 8; written' "$work/singles" --split "$work/five" "$work/both"
  expect "one after the other" writes 0 'divided: steps 2, cost 8; ' "$work/singles" --split "$work/five" "$work/singles"
  expect "at reserve 25" writes 0 'divided: steps 3, cost 16; ' "$work/plan" --reserve 25 --split "$work/a" "$work/plan"
  expect "the reserve behind" writes 0 'divided: steps 3, cost 16; ' "$work/plan" --split --reserve 25 "$work/a" "$work/plan"
  expect "options behind" divided_behind
  expect "over the plan record itself" divided_over
  expect "no steps" writes 0 'divided: steps 0, cost 0; ' "$work/no-steps" --split "$work/home" "$work/no-steps"
  expect "no steps in version 1" writes 0 'divided: steps 0, cost 0; ' "$work/no-steps-1" --split "$work/home" "$work/no-steps-1"
  expect "an empty plan" writes 0 'divided: steps 0, cost 0; ' "$work/no-steps" --split "$work/home" "$work/empty"
  expect "what was planned" divided_planned
  expect "512 moves and more" divided_many "$work/many"
  expect "one line" divided_line
  for example in "$examples"/*.split "$examples"/*.verdict; do
    grep -q '^accepted' "$example" || expect "$example" divided_as "$example"
  done
  agent_split_refusals
  agent_split_use
}

# The options may stand behind the files.
divided_behind() {
  echo before >"$work/got"
  says 0 'divided: steps 2, cost 8; ' "$work/five" "$work/both" "$work/got" --reserve 0 --split && cmp "$work/got" "$work/singles"
}

# PLAN-OUT may be PLAN: it is read before it is written.
divided_over() {
  cp "$work/both" "$work/over-itself"
  says 0 'divided: steps 2' --split "$work/five" "$work/over-itself" "$work/over-itself" && cmp "$work/over-itself" "$work/singles"
}

# A plan that was built has its sources, and keeps them.
divided_planned() {
  record "$work/sources" '02 00000011 0002 0001 00 00 01 0001 01 01 00'
  says 0 'plan: steps 1, moves 2, cost 5' "$work/five" "$work/made" &&
    writes 0 'divided: steps 2, cost 8; ' "$work/sources" --split "$work/five" "$work/made"
}

# 256 VMs go aside and home: 512 moves. With one more move of VM 0 they are too many.
divided_many() {
  local vms aside home after
  vms=$(printf '0000010000 00 01 %.0s' {1..256})
  aside=$(printf '%02x 02 ' {0..255})
  home=$(printf '%02x 01 ' {0..255})
  after=$(printf '0001 %02x 02 ' {0..255})$(printf '0001 %02x 01 ' {0..255})
  record "$1" "01 0000071a 0003 0100 0000 0010000000 0010000000 0010000000 $vms"
  record "$1-plan" "01 0000040b 0002 0100 $aside 0100 $home"
  record "$1-after" "01 00000807 0200 $after"
  record "$1-more" "01 0000040f 0003 0001 00 01 0100 $aside 0100 $home"
  writes 0 'divided: steps 512, cost 131328; ' "$1-after" --split "$1" "$1-plan" &&
    keeps 2 "agent: refused, number 14; nothing written. $(text_of 14)" --split "$1" "$1-more"
}

divided_line() {
  "$agent" --split "$work/five" "$work/both" "$work/got" >"$work/said" && [ "$(wc -l <"$work/said")" -eq 1 ]
}

agent_split_refusals() {
  expect "a step refused" keeps 2 "agent: refused, number 17, step 1; nothing written. $(text_of 17)" --split "$work/a" "$work/both"
  expect "the same at reserve 1" keeps 2 'refused, number 17, step 1; ' --reserve 1 --split "$work/five" "$work/both"
  expect "an incomplete plan" keeps 2 "agent: refused, number 19; nothing written. $(text_of 19)" --split "$work/half" "$work/half-plan"
  expect "no plan" keeps 2 'refused, number 19; ' --split "$work/a" "$work/empty"
  expect "no step" keeps 2 'refused, number 19; ' --split "$work/a" "$work/no-steps"
  expect "another cluster" keeps 2 'refused, number 27, step 1; ' --split "$work/home" "$work/plan"
  expect "a damaged cluster" keeps 2 'refused, number 6; ' --split "$work/damaged" "$work/plan"
  expect "an empty cluster" keeps 2 'refused, number 1; ' --split "$work/empty" "$work/plan"
  expect "files swapped" keeps 2 'refused, number 5; ' --split "$work/plan" "$work/a"
  expect "a cluster as plan" keeps 2 'refused, number 14; ' --split "$work/a" "$work/a"
  expect "a plan of 70,000 bytes" keeps 2 'refused, number 13; ' --split "$work/a" "$work/long"
  expect "reserve 26" keeps 2 'refused, number 8; ' --reserve 26 --split "$work/a" "$work/plan"
  expect "reserve 91" keeps 2 "agent: refused, number 23; nothing written. $(text_of 23)" --reserve 91 --split "$work/empty" "$work/empty"
}

agent_split_use() {
  expect "two files" keeps 3 'usage: ' --split "$work/a"
  expect "four files" keeps 3 'usage: ' --split "$work/a" "$work/plan" "$work/got"
  expect "no file" says 3 'usage: ' --split
  expect "blocked steps of a split" keeps 3 'usage: ' --keep-blocked --split "$work/a" "$work/plan"
  expect "a split of a stop" keeps 3 'usage: ' --split --stop 1 1 "$work/a" "$work/plan"
  expect "a stop of a split" keeps 3 'usage: ' --stop 1 1 --split "$work/a" "$work/plan"
  expect "a word behind it" keeps 3 'usage: ' --split=1 "$work/a" "$work/plan"
  expect "no percent" says 3 'usage: ' --split "$work/a" "$work/plan" "$work/got" --reserve
  expect "percents" keeps 3 'usage: ' --split --reserve 10% "$work/a" "$work/plan"
  expect "a missing cluster" keeps 3 "cannot read $work/nowhere" --split "$work/nowhere" "$work/plan"
  expect "a missing plan" keeps 3 "cannot read $work/nowhere" --split "$work/a" "$work/nowhere"
  expect "a folder as plan" keeps 3 'cannot read' --split "$work/a" "$work"
  expect "no folder to write to" says 3 'cannot write' --split "$work/a" "$work/plan" "$work/nowhere/plan"
  if [ -c /dev/full ]; then
    expect "a full disk" says 3 'cannot write' --split "$work/a" "$work/plan" /dev/full
    expect "nowhere to print a divided plan" unheard --split "$work/a" "$work/plan"
    expect "nowhere to print its refusal" unheard --split "$work/a" "$work/both"
  fi
}

agents() {
  agent=$work/$1/agent
  agent_moves
  agent_answers
  agent_reserves
  agent_faults
  group "$1: agent"
  agent_stops
  group "$1: agent, stops"
  agent_splits
  group "$1: agent, splits"
}

# wrong_library NUMBER: the agent with a library that is wrong in this way.
wrong_library() {
  agent=$work/wrong
  expect "wrong library $1" "$cc" "${strict[@]}" "${sanitize[@]}" -DWRONG="$1" "$here/agent.c" "$here/test_wrong.c" -o "$agent"
}

# disagrees NUMBER TEXT ARGUMENT...: what it says then.
disagrees() {
  local number=$1
  shift
  wrong_library "$number"
  expect "disagreement $number" keeps 5 "$@"
}

wrong() {
  local i
  for i in {1..14}; do
    disagrees "$i" 'planner and checker disagree' --keep-blocked "$work/a"
  done
  for i in {21..36}; do
    disagrees "$i" 'stop, checker and planner disagree' --reserve 25 --stop 1 1 "$work/a" "$work/plan"
  done
  wrong_library 40
  expect "nothing wrong" writes 0 'divided: steps 2, cost 8; ' "$work/singles" --reserve 1 --split "$work/five" "$work/both"
  for i in {41..67}; do
    disagrees "$i" 'split and checker disagree' --reserve 1 --split "$work/five" "$work/both"
  done
  group "disagreement"
}

files
lib_tests
archives
texts
builds plain -O2
builds sanitized "${sanitize[@]}"
more_builds
cplusplus
for label in plain sanitized; do
  for name in test_names test_header test_reader test_reserve test_before test_stop test_split; do
    run "$label" "$work/$label/$name"
  done
done
run plain "$work/plain/test_threads"
agents plain
agents sanitized
wrong
echo "agent: $total_passed passed, $total_failed failed"
[ "$total_failed" -eq 0 ]
