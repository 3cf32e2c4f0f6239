# shellcheck shell=sh
# Functions of the scripts that test a built program, tools/program.sh and tools/wasm2text.sh. A case compares the standard output, the standard
# error and the status of a command with the files `out` and `err` and a number.

# start_cases NAME PROGRAM: copies the program into a new folder under its name, and changes to that folder. It sets `program`.
start_cases() {
    work=$(mktemp -d)
    trap 'rm -rf "$work"' EXIT
    name=$1
    program=$work/$name
    cp "$2" "$program"
    # another user may start the program, too
    chmod 755 "$work" "$program"
    cd "$work"
    cases=0
    failed=0
}

# end_cases: prints how many cases passed. The status is not 0 if a case differs.
end_cases() {
    echo "$name: $((cases - failed)) of $cases cases as typed"
    [ "$failed" = 0 ]
}

# colored: replaces marks in standard input by ANSI escape sequences: {K} keyword, {N} name, {T} type, {L} literal, {C} comment, {R} reset.
colored() {
    escape=$(printf '\033')
    sed "s/{K}/{R}$escape[1m$escape[38;5;11m/g; s/{N}/{R}$escape[35m/g; s/{T}/{R}$escape[1m$escape[38;5;10m/g
        s/{L}/{R}$escape[31m/g; s/{C}/{R}$escape[36m/g; s/{R}/$escape[0m/g"
}

# started STATUS COMMAND..: runs the command, and checks that it ends with the status, that its standard output equals the file `out`, and
# that its standard error equals the file `err`.
started() {
    expected=$1
    shift
    cases=$((cases + 1))
    status=0
    timeout 60 "$@" >written 2>reported || status=$?
    if [ "$status" != "$expected" ] || ! cmp -s out written || ! cmp -s err reported; then
        {
            echo "$name: $*: status $status, expected $expected. Differences of the output:"
            diff out written || true
            diff err reported || true
        } | cut -c 1-300
        failed=$((failed + 1))
    fi
}

# case_of STATUS WORD..: runs the program with these arguments, and checks the same.
case_of() {
    expected=$1
    shift
    started "$expected" "$program" "$@"
}

# as_user STATUS WORD..: runs the program with these arguments as a user other than root, and checks the same.
as_user() {
    expected=$1
    shift
    if [ "$(id -u)" = 0 ]; then
        started "$expected" setpriv --reuid=65534 --regid=65534 --clear-groups "$program" "$@"
    else
        started "$expected" "$program" "$@"
    fi
}
