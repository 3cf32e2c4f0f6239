#!/bin/sh
# Tries the mutants that the gate leaves out, since each takes about half a minute: the files crates/NAME/mutants/*.edit, which have the
# format of crates/NAME/must-fail/*.edit. The prover must reject each of them. The status is not 0 if it accepts one, or if one can't be read.
#
# tools/mutants.sh [NAME..]: tries those of the named crates, or of all crates. It runs `rt ci` on a copy: crates that passed on this
# machine are not proved again, and several crates are tried at once. If the kit's `rt ci` takes no names (status 2), it runs `rt must-fail`,
# which first proves the crates below.
set -eu
cd "$(dirname "$0")/.."
began=$(date +%s)
work=$(mktemp -d)
trap 'rm -rf "$work"' EXIT
tar -c --exclude=out crates crates.txt HANDLES | tar -x -C "$work"
cd "$work"
[ $# -gt 0 ] || set -- $(ls -d crates/*/mutants | cut -d/ -f2)
rm -rf crates/*/must-fail
for name; do
    mv "crates/$name/mutants" "crates/$name/must-fail"
done
# a kit whose `rt ci` takes no names ends it with status 2 at once
for command in 'rt ci' 'rt must-fail'; do
    { status=0; $command "$@" 2>&1 || status=$?; echo "$status" >status; } | tee run
    [ "$(cat status)" = 2 ] || break
done
refused=$(grep -c '^rt: must-fail .*: refused, as it must be' run || true)
wrong=$(ls crates/*/must-fail/*.edit | wc -l)
echo "mutants: $refused of $wrong rejected, $(($(date +%s) - began)) seconds"
# `rt ci` succeeds even if an edit does not compile
[ "$(cat status)" = 0 ] && [ "$refused" = "$wrong" ]
