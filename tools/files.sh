#!/bin/sh
# Checks the files of the repository: none is a symbolic link, since `rt ci` refuses a repository with one, and each copy of the licence in a
# package of bindings/ equals LICENSE. Prints a line for each fault. The status is 1 if there is one.
set -eu
cd "$(dirname "$0")/.."

# ours EXPRESSION..: prints the paths for which the expression of find holds, except in folders that tools make.
ours() {
    find . \( -name .git -o -name out -o -name target -o -name __pycache__ \) -prune -o "$@" -print
}

links=$(ours -type l | sed 's/^/files: a symbolic link: /')
copies=$(ours -path './bindings/*/LICENSE' | sort)
different=$(for copy in $copies; do cmp -s LICENSE "$copy" || echo "files: another text than LICENSE: $copy"; done)
if [ -n "$links$different" ]; then
    printf '%s\n%s\n' "$links" "$different" | sed '/^$/d'
    exit 1
fi
echo "files: no symbolic link, $(echo "$copies" | wc -l) copies of the licence are equal"
