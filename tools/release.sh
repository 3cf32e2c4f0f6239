#!/bin/sh
# Makes a release archive of the programs and the library for C that `tools/install.sh build` has built, and of the bindings.
#
# tools/release.sh OUT [BUILT]: writes `wasmprinter-VERSION-rN-x86_64-linux-gnu.tar.gz` and its checksum, with the suffix `.sha256`, to the folder
# OUT. BUILT is the folder of `tools/install.sh build`, by default OUT. Fails if a built file is missing, or if the commit or the work tree has
# changed since it was built. tools/embed.sh tests an archive.
#
# The archive has one folder, which can be moved:
#
# - the files that tools/install.sh installs;
# - bindings: all files of bindings/ that git tracks, and a wheel of the Python package (tools/release/wheel.py);
# - BUILD.txt: the commit, whether files differed from it, the kit, and the SHA-256 of each file.
#
# The same built files at the same commit make the same archive: times are those of the commit. Uses git, GNU tar, gzip and Python 3.11 or later.
# Needs no `rt`. Takes a second.
set -eu
if [ $# -lt 1 ] || [ $# -gt 2 ]; then
    echo 'usage: tools/release.sh OUT [BUILT]' >&2
    exit 2
fi
root=$(cd "$(dirname "$0")/.." && pwd)
work=$(mktemp -d)
trap 'rm -rf "$work"' EXIT
out=$1
built=${2:-$1}
staged=$work/staged
export LC_ALL=C

# value_of NAME: prints a value from the file for pkg-config.
value_of() {
    sed -n "s/^$1[=:] *//p" "$staged/lib/pkgconfig/wasmprinter.pc"
}

sh "$root/tools/install.sh" stage "$built" "$staged"
release=$(value_of Version)-$(value_of revision)
name=wasmprinter-$release-x86_64-linux-gnu
time=$(git -C "$root" log -1 --format=%ct)

git -C "$root" ls-files bindings | grep -v '/\.gitignore$' >"$work/bindings"
while read -r path; do
    install -D -m 644 "$root/$path" "$staged/$path"
done <"$work/bindings"
SOURCE_DATE_EPOCH=$time python3 -B "$root/tools/release/wheel.py" "$staged/bindings/python"

{
    echo "# wasmprinter $release, for Linux with glibc on processors with the instructions of x86-64-v2"
    cat "$staged/BUILD.txt"
    # shellcheck disable=SC2016 # the backquotes are those of the text
    echo '# SHA-256 of each other file, which `sha256sum --check BUILD.txt` compares:'
    (cd "$staged" && find . ! -type d ! -path ./BUILD.txt | sed 's,^\./,,' | sort | xargs sha256sum)
} >"$work/BUILD.txt"
mv "$work/BUILD.txt" "$staged/BUILD.txt"

mv "$staged" "$work/$name"
tar --format=ustar --sort=name --mtime="@$time" --owner=0 --group=0 --numeric-owner --mode=u=rwX,go=rX -cf "$work/$name.tar" -C "$work" "$name"
gzip -n "$work/$name.tar"
mkdir -p "$out"
(cd "$work" && sha256sum "$name.tar.gz") >"$out/$name.tar.gz.sha256"
mv "$work/$name.tar.gz" "$out/$name.tar.gz"
echo "release: $out/$name.tar.gz"
