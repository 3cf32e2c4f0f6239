#!/bin/sh
# Tests the library for C with tools that watch memory, and by fuzzing. It is not part of the gate.
#
# tools/bindings_long.sh BUILT [MINUTES]: BUILT is a folder with libwasmprinter.a, libwasmprinter.so.1 and printwasm, as `tools/install.sh build`
# leaves it. It does these, and prints a line for each:
#
# - sanitizers: compiles the tests that tools/bindings.sh runs in C and C++ with AddressSanitizer, LeakSanitizer and UndefinedBehaviorSanitizer, and
#   runs them with the static library;
# - valgrind: runs the same tests with the shared library, and prints the modules of bindings/cases.txt with each set of options by bindings/c/texts.c and
#   with some sets by printwasm. Each error and each leak counts;
# - helgrind: prints in 100 threads at once, and reports data races;
# - faults: checks that these tools report the faults of bindings/c/faults.c;
# - fuzzing: runs bindings/c/fuzz.c by libFuzzer for MINUTES (5 by default), from the modules of all rows and of `tools/fuzz.py inputs`. An input that
#   fails is left in BUILT, with a name that starts with `fuzz-`;
# - texts: `tools/fuzz.py compare` compares the texts of the library with those of printwasm.
#
# The library itself is not compiled with sanitizers: they see its calls of the C library, and valgrind sees each of its accesses to memory.
#
# Variables: MODULES (2000), SEED (1) and JOBS (the number of processors) for the last two parts, and PARTS for the names of the parts that are run, by
# default all. Uses clang with Debian's libclang-rt-14-dev, valgrind and python3. The status is 1 if a part fails; the other parts are run nevertheless.
set -eu
if [ $# -lt 1 ] || [ $# -gt 2 ]; then
    echo 'usage: tools/bindings_long.sh BUILT [MINUTES]' >&2
    exit 2
fi
built=$(cd "$1" && pwd)
minutes=${2:-5}
cd "$(dirname "$0")/.."
for tool in clang clang++ valgrind python3 "$built/printwasm"; do
    if ! command -v "$tool" >/dev/null; then
        echo "bindings_long: no $tool on this machine" >&2
        exit 2
    fi
done
work=$(mktemp -d)
trap 'rm -rf "$work"' EXIT
modules=${MODULES:-2000}
seed=${SEED:-1}
jobs=${JOBS:-$(nproc)}
failed=0
found=99 # the status of a program in which a tool found an error
export ASAN_OPTIONS=detect_leaks=1 UBSAN_OPTIONS=print_stacktrace=1

# shellcheck disable=SC2034 # tools/common/c_tests.sh uses these
cc=clang cxx=clang++
archive=$built/libwasmprinter.a
basic='-O1 -gdwarf-4 -Wall -Wextra -Wpedantic -Werror -Iinclude'
sanitized='-fno-omit-frame-pointer -fno-sanitize-recover=all -fsanitize=address,undefined'
. tools/common/c_tests.sh

# memcheck COMMAND..: runs a program under valgrind. Its own functions in place of malloc, realloc, free and operator new are kept.
memcheck() {
    valgrind -q "--error-exitcode=$found" --leak-check=full --show-leak-kinds=all --errors-for-leak-kinds=all \
        --soname-synonyms=somalloc=nouserintercepts "$@"
}

# fail WORD..: prints a message, and counts it.
fail() {
    echo "bindings_long: $*"
    failed=$((failed + 1))
}

# expect WHAT COMMAND..: runs a command, and prints the end of its output if it fails.
expect() {
    what=$1
    shift
    "$@" >"$work/log" 2>&1 || { tail -n 50 "$work/log"; fail "$what: failed: $*"; }
    runs=$((runs + 1))
}

# report WHAT: prints the line of a part.
report() {
    echo "$1: $runs programs run, $((failed - before)) failed"
}

# start: starts to count for the line of a part.
start() {
    runs=0
    before=$failed
}

# compile_all: compiles the tests, and texts.c and faults.c, to the folder `made`.
compile_all() {
    mkdir -p "$made"
    each_test compile_both
    compile_hpp 17
    compile_hpp 20
    compile_both texts "$library"
    # shellcheck disable=SC2086 # each flag is a word
    clang -std=c99 $flags '-DFAULT=argc - 1' bindings/c/faults.c "$library" -o "$made/faults"
}

# run_tests PART WORD..: runs each test in the folder `made` with these words before it.
run_tests() {
    part=$1
    shift
    for test in $(each_test name_test) hpp_17 hpp_20; do
        expect "$part" "$@" "$made/$test" bindings/cases.txt
    done
}

# name_test TEST WORD..: prints the names of the programs of a test.
name_test() {
    echo "${1}_c ${1}_cpp"
}

part_sanitizers() {
    made=$work/sanitized
    start
    run_tests sanitizers
    expect sanitizers "$made/texts_c" "$work"/cases/*
    expect sanitizers "$made/texts_cpp" "$work"/cases/*
    report sanitizers
}

# by_program OPTION..: prints each case by printwasm under valgrind. A module that is refused has status 1.
by_program() {
    for case in "$work"/cases/*; do
        status=0
        memcheck "$built/printwasm" "$@" "$case" >"$work/log" 2>&1 || status=$?
        [ "$status" -le 1 ] || { tail -n 50 "$work/log"; fail "valgrind: printwasm $* $case: status $status"; }
        runs=$((runs + 1))
    done
}

part_valgrind() {
    made=$work/plain
    start
    run_tests valgrind memcheck
    expect valgrind memcheck "$made/texts_c" "$work"/cases/*
    expect valgrind memcheck "$made/texts_cpp" "$work"/cases/*
    by_program
    by_program --fold
    by_program --offsets --name-unnamed --color
    report valgrind
}

part_helgrind() {
    start
    expect helgrind valgrind -q "--error-exitcode=$found" --tool=helgrind "$work/plain/threads_c"
    report helgrind
}

# found_fault FAULT MESSAGE COMMAND..: runs a program with as many words as the number of the fault. The tool has to end it with a message.
found_fault() {
    words=$1
    message=$2
    shift 2
    while [ "$words" -gt 0 ]; do
        set -- "$@" x
        words=$((words - 1))
    done
    if "$@" >"$work/log" 2>&1 || ! grep -q "$message" "$work/log"; then
        tail -n 20 "$work/log"
        fail "faults: not reported ($message): $*"
    fi
    runs=$((runs + 1))
}

part_faults() {
    start
    for fault in 1 2 3 4 5 6 7 8; do
        found_fault "$fault" 'null pointer passed as argument' "$work/sanitized/faults"
    done
    found_fault 9 LeakSanitizer "$work/sanitized/faults"
    found_fault 9 'definitely lost' memcheck "$work/plain/faults"
    found_fault 10 'Invalid write' memcheck "$work/plain/faults"
    expect faults "$work/sanitized/faults"
    expect faults memcheck "$work/plain/faults"
    report faults
}

# fuzz NUMBER: runs the target with another seed.
fuzz() {
    mkdir "$work/corpus$1"
    "$work/fuzz" "-seed=$((seed * 1000 + $1))" "-max_total_time=$((minutes * 60))" -keep_seed=1 -max_len=8192 -timeout=60 -rss_limit_mb=4096 \
        -print_final_stats=1 "-artifact_prefix=$built/fuzz-" "$work/corpus$1" "$work/inputs" >"$work/fuzz$1.log" 2>&1
}

part_fuzzing() {
    # shellcheck disable=SC2086 # each flag is a word
    clang -std=c99 $basic -fno-sanitize-recover=all -fsanitize=fuzzer,address,undefined bindings/c/fuzz.c "$archive" -o "$work/fuzz"
    python3 -B tools/fuzz.py inputs "$work/inputs" --seed "$seed" --modules "$modules" >"$work/log"
    running=''
    for number in $(seq "$jobs"); do
        fuzz "$number" &
        running="$running $!"
    done
    number=0
    for process in $running; do
        number=$((number + 1))
        wait "$process" || { tail -n 50 "$work/fuzz$number.log"; fail "fuzzing: process $number failed"; }
    done
    sed -n 's/^stat::number_of_executed_units: *//p' "$work"/fuzz*.log |
        awk -v minutes="$minutes" -v jobs="$jobs" '{ sum += $1 } END { printf "fuzzing: %d inputs, %d processes, %d minutes\n", sum, jobs, minutes }'
}

part_texts() {
    python3 -B tools/fuzz.py self-test || fail 'texts: tools/fuzz.py self-test failed'
    python3 -B tools/fuzz.py compare "$work/sanitized/texts_c" "$built/printwasm" --seed "$seed" --modules "$modules" --jobs "$jobs" ||
        fail 'texts: tools/fuzz.py compare failed'
}

python3 -B tools/fuzz.py cases "$work/cases" >"$work/log"
made=$work/sanitized library=$archive flags="$basic $sanitized"
compile_all
made=$work/plain library=$built/libwasmprinter.so.1 flags="$basic -Wl,-rpath,$built"
compile_all
for part in ${PARTS:-sanitizers valgrind helgrind faults fuzzing texts}; do
    "part_$part"
done
[ "$failed" = 0 ]
