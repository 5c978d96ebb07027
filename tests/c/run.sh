#!/usr/bin/env bash
# Builds the programs in C against crates/retro_c/out/libretro_c.a and runs them: layout, what retro.h
# promises; round_trip, Write and Read of the four-risk group in either edition; billing, guaranteed,
# charges and plan, which are held to tests/c/*.expected, whose figures are the second rater's, for
# charges those of tests/src/charges_1965.rs, and for plan those of tests/src/plans.rs, as
# tests/tests/stored.rs has them again. Any failure exits non-zero.
set -euo pipefail
export LC_ALL=C
cd "$(dirname "$0")/../.."

archive=crates/retro_c/out/libretro_c.a
built=cargo-target/c
[ -f "$archive" ] || { echo "$archive is missing: run 'rt lib' in crates/retro_c first" >&2; exit 1; }
for compiler in gcc g++; do
    command -v "$compiler" >/dev/null || { echo "$compiler is not installed" >&2; exit 1; }
done
mkdir -p "$built"
strict=(-Wall -Wextra -Werror -pedantic -Iinclude)

gcc -std=c11 "${strict[@]}" tests/c/layout.c "$archive" -o "$built/layout"
g++ -std=c++11 -x c++ "${strict[@]}" tests/c/layout.c -x none "$archive" -o "$built/layout++"
gcc -std=c11 -O2 "${strict[@]}" tests/c/round_trip.c "$archive" -o "$built/round_trip"
gcc -std=c11 -O2 "${strict[@]}" tests/c/billing.c "$archive" -o "$built/billing"
gcc -std=c11 -O2 "${strict[@]}" tests/c/guaranteed.c "$archive" -o "$built/guaranteed"
gcc -std=c11 -O2 "${strict[@]}" tests/c/charges.c "$archive" -o "$built/charges"
gcc -std=c11 -O2 "${strict[@]}" tests/c/plan.c "$archive" -o "$built/plan"

for language in layout layout++; do
    "$built/$language" || { echo "$language: call $? has another answer" >&2; exit 1; }
done
echo "layout: 7 calls linked and run as C11 and as C++11: as expected"
"$built/round_trip"

# ran STATUS PROGRAM ARGUMENT..: runs the program, which must end with that status.
ran() {
    local expected=$1 program=$2 status=0
    shift 2
    "$built/$program" "$@" >"$built/printed" 2>"$built/said" || status=$?
    [ "$status" -eq "$expected" ] || {
        echo "$program $*: exit status $status, expected $expected" >&2
        cat "$built/said" >&2
        exit 1
    }
}

# lines NAME PROGRAM ARGUMENT..: the lines of tests/c/NAME.expected, and nothing on standard error.
lines() {
    local name=$1
    shift
    ran 0 "$@"
    diff "tests/c/$name.expected" "$built/printed"
    diff /dev/null "$built/said"
}

# failure NAME STATUS PROGRAM ARGUMENT..: the message of tests/c/NAME.expected on standard error, and
# no lines.
failure() {
    local name=$1
    shift
    ran "$@"
    diff "tests/c/$name.expected" "$built/said"
    diff /dev/null "$built/printed"
}

# unprinted PROGRAM ARGUMENT..: lines that cannot be printed.
unprinted() {
    local program=$1 status=0
    shift
    "$built/$program" "$@" >/dev/full 2>"$built/said" || status=$?
    [ "$status" -eq 4 ] || {
        echo "$program $*, printed to /dev/full: exit status $status, expected 4" >&2
        exit 1
    }
}

lines four-risks billing examples/four-risks.group
lines entry-ratio billing examples/entry-ratio.group
lines scaffold billing examples/scaffold.group
failure missing 2 billing examples/no-such-file.group
failure folder 2 billing examples
failure usage 3 billing
failure usage 3 billing examples/four-risks.group examples/no-limit.group

# Each refused example, with its number and question, as tests/c/refused.expected has them.
for k in 01 02 03 04 05 06 07 08 09 10 12 18 19; do
    ran 1 billing "examples/refused-$k.group"
    diff /dev/null "$built/printed"
    cat "$built/said"
done >"$built/refused"
diff tests/c/refused.expected "$built/refused"
unprinted billing examples/four-risks.group

echo "billing: 3 invoices, 13 refused files, 2 unreadable, 2 wrong usages, 1 unprinted: as expected"

# The stock schedule, with and without its numbers.
file=examples/four-risks.group
lines guaranteed guaranteed "$file"
lines guaranteed guaranteed "$file" 5000 0 95000 109 400000 126 144

# Schedules that are refused: 16 of each rate, 17 of each width, 16 before 17; and a file.
for schedule in '5000 1001 95000 109 400000 126 144' '5000 0 95000 1001 400000 126 144' \
    '5000 0 95000 109 400000 1001 144' '5000 0 95000 109 400000 126 1001' \
    '0 0 95000 109 400000 126 144' '5000 0 0 109 400000 126 144' '5000 0 95000 109 0 126 144' \
    '0 0 95000 109 400000 126 4294967295'; do
    read -r -a numbers <<<"$schedule"
    ran 1 guaranteed "$file" "${numbers[@]}"
    diff /dev/null "$built/printed"
    cat "$built/said"
done >"$built/refused"
ran 1 guaranteed examples/refused-12.group 0 0 95000 109 400000 126 1001
cat "$built/said" >>"$built/refused"
diff tests/c/guaranteed-refused.expected "$built/refused"

failure guaranteed-usage 3 guaranteed
failure guaranteed-usage 3 guaranteed "$file" 5000 0 95000 109 400000 126
failure guaranteed-usage 3 guaranteed "$file" 5000 0 95000 109 400000 12.6 144
failure guaranteed-usage 3 guaranteed "$file" 5000 0 95000 109 4294967296 126 144
failure guaranteed-missing 2 guaranteed examples/no-such-file.group
unprinted guaranteed "$file"

echo "guaranteed: 2 groups shown, 9 refused, 1 unreadable, 4 wrong usages, 1 unprinted: as expected"

# Columns and entry ratios in hundredths, with the corners of the table.
for pair in '36 0' '36 100' '36 500' '43 200' '44 150' '50 332' '51 357' '52 100' '52 500'; do
    read -r -a numbers <<<"$pair"
    ran 0 charges "${numbers[@]}"
    diff /dev/null "$built/said"
    cat "$built/printed"
done >"$built/charged"
diff tests/c/charges.expected "$built/charged"

# 20 of a column on either side and of the largest number, 21, and 20 before 21.
for pair in '35 100' '53 0' '4294967295 100' '44 501' '44 4294967295' '53 501'; do
    read -r -a numbers <<<"$pair"
    ran 1 charges "${numbers[@]}"
    diff /dev/null "$built/printed"
    cat "$built/said"
done >"$built/refused"
diff tests/c/charges-refused.expected "$built/refused"

failure charges-usage 3 charges
failure charges-usage 3 charges 44
failure charges-usage 3 charges 44 150 1
failure charges-usage 3 charges .44 1.50
failure charges-usage 3 charges 44 1.50
failure charges-usage 3 charges -44 150
failure charges-usage 3 charges 44 ''
failure charges-usage 3 charges 4294967296 150
failure charges-usage 3 charges 44 99999999999999999999
unprinted charges 44 150

echo "charges: 9 shown, 6 refused, 9 wrong usages, 1 unprinted: as expected"

# Plans of the four-risk group, of others, and of a file that Rate refuses with 12: bounds in effect,
# without effect and equal, a minimum above what is owed, numbers of trials, and either edition.
for terms in 'four-risks 13020 4935' 'four-risks 13020 4935 20' 'four-risks 12000 5000' \
    'four-risks 4294967295 0' 'four-risks 8400 8400' 'four-risks 8400 0' 'four-risks 60000 50000' \
    'four-risks 13020 4935 0' 'four-risks 13020 4935 1' 'four-risks 13020 4935 10' \
    'four-risks 13020 4935 19' 'four-risks 13020 4935 21' 'four-risks 13020 4935 4294967295' \
    'ten-risks 13740 4640' 'scaffold 4294967295 3885' 'entry-ratio 65116 32190' \
    'largest 29114763 5143172' 'largest 4294967295 4294967295' 'largest-edition-2 27843387 6114965' \
    'refused-12 4294967295 0'; do
    read -r -a words <<<"$terms"
    ran 0 plan "examples/${words[0]}.group" "${words[@]:1}"
    diff /dev/null "$built/said"
    echo "== $terms"
    cat "$built/printed"
done >"$built/planned"
diff tests/c/plan.expected "$built/planned"

# 22, also where 23 would follow; 23, also without trials; and each question of a file before them.
for terms in 'four-risks 4935 13020' 'four-risks 8398 8399' 'four-risks 8399 0' \
    'four-risks 8399 8399 0' 'four-risks 0 4294967295 0' 'refused-01 0 1' 'refused-02 0 1' \
    'refused-03 0 1' 'refused-04 0 1' 'refused-05 0 1' 'refused-06 0 1' 'refused-18 0 1' \
    'refused-07 0 1' 'refused-08 0 1' 'refused-09 0 1' 'refused-19 0 1' 'refused-10 0 1'; do
    read -r -a words <<<"$terms"
    ran 1 plan "examples/${words[0]}.group" "${words[@]:1}"
    diff /dev/null "$built/printed"
    cat "$built/said"
done >"$built/refused"
diff tests/c/plan-refused.expected "$built/refused"

failure plan-usage 3 plan
failure plan-usage 3 plan "$file"
failure plan-usage 3 plan "$file" 13020
failure plan-usage 3 plan "$file" 13020 4935 20 1
failure plan-usage 3 plan "$file" 13020.50 4935
failure plan-usage 3 plan "$file" 13020 -1
failure plan-usage 3 plan "$file" 13020 4935 ''
failure plan-usage 3 plan "$file" 4294967296 4935
failure plan-usage 3 plan "$file" 13020 4935 99999999999999999999
failure plan-missing 2 plan examples/no-such-file.group 13020 4935
unprinted plan "$file" 13020 4935

echo "plan: 20 shown, 17 refused, 1 unreadable, 9 wrong usages, 1 unprinted: as expected"
