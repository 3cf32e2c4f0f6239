# Functions for scripts that fetch Debian packages with apt-get and unpack them without installing them. A script sets `work`, the folder for all
# files, and then reads this file. Each release has a folder of its own there, with its lists, packages and sources.
export DEBIAN_FRONTEND=noninteractive

# Prints the first mirror of the machine's apt sources, which have two formats: `deb` lines, and fields `URIs:`.
mirror() {
    for file in /etc/apt/sources.list /etc/apt/sources.list.d/*.sources /etc/apt/sources.list.d/*.list; do
        [ ! -f "$file" ] || sed -n 's/^deb  *\(\[[^]]*\]  *\)\{0,1\}\([^ ]*\).*/\2/p; s/^URIs:[[:space:]]*\([^[:space:]]*\).*/\1/p' "$file"
    done | head -n 1
}

# from_release RELEASE ARGUMENT..: runs apt-get for one release, with its own folders for lists and packages.
from_release() {
    folder=$work/$1
    shift
    apt-get -q -o Dir::Etc::sourcelist="$folder/release.sources" -o Dir::Etc::sourceparts=- -o Dir::State::lists="$folder/lists" \
        -o Dir::State::status="$folder/status" -o Dir::Cache="$folder/cache" --no-install-recommends "$@"
}

# update_release RELEASE: reads the lists of a release.
update_release() {
    mkdir -p "$work/$1/lists/partial" "$work/$1/cache/archives/partial" "$work/$1/packages" "$work/$1/sources"
    : >"$work/$1/status"
    mirror=$(mirror)
    if [ -z "$mirror" ]; then
        echo "no mirror in /etc/apt/sources.list or /etc/apt/sources.list.d" >&2
        exit 1
    fi
    printf 'Types: deb deb-src\nURIs: %s\nSuites: %s\nComponents: main\nSigned-By: /usr/share/keyrings/debian-archive-keyring.gpg\n' "$mirror" "$1" \
        >"$work/$1/release.sources"
    from_release "$1" update
}

# unpack_tools RELEASE TOOL..: unpacks the packages that `install --download-only` fetched, and makes a starter of each tool in the folder
# `peers/bin`. The tools run with the loader and the libraries of the same packages.
unpack_tools() {
    root=$work/peers/root
    mkdir -p "$root" "$work/peers/bin"
    for file in "$work/$1"/cache/archives/*.deb; do
        dpkg -x "$file" "$root"
    done
    shift
    for tool; do
        printf '#!/bin/sh\nexec %s --library-path %s %s "$@"\n' "$root/usr/lib64/ld-linux-x86-64.so.2" "$root/usr/lib/x86_64-linux-gnu" \
            "$root/usr/bin/$tool" >"$work/peers/bin/$tool"
        chmod 755 "$work/peers/bin/$tool"
    done
}

# unpack_packages RELEASE: unpacks each package that `download` fetched in a folder of `packages`, with the name of the package.
unpack_packages() {
    for file in "$work/$1"/packages/*.deb; do
        name=$(basename "$file")
        mkdir -p "$work/packages"
        dpkg -x "$file" "$work/packages/${name%%_*}"
    done
}
