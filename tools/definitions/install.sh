#!/bin/sh
# install.sh WORK: fetches what tools/definitions.sh needs, with apt-get. Nothing is installed: all packages are unpacked under WORK.
#
# The suites come from Debian's source packages of wabt and binaryen, and from a package of wazero, which contains the standard's test suite.
# The modules that compilers made come from the packages of wasi-libc and of Rust's library. All are of Debian unstable, which has newer
# versions; a source package that can't be fetched there comes from the release that the machine runs.
set -eu
work=$1
. "$(dirname "$0")/../debian.sh"

# fetch_suite RELEASE PACKAGE: fetches a source package, and unpacks its upstream part in the folder `suites`.
fetch_suite() {
    (cd "$work/$1/sources" && from_release "$1" source --download-only "$2") && tar -xf "$(ls "$work/$1/sources/$2"_*.orig.tar.*)" -C "$work/suites"
}

mkdir -p "$work/suites"
own=$(. /etc/os-release && echo "$VERSION_CODENAME")
update_release sid
update_release "$own"
from_release sid -y --download-only install wasm-tools wabt
for package in wasi-libc libstd-rust-dev-wasm32 golang-github-tetratelabs-wazero-dev; do
    (cd "$work/sid/packages" && from_release sid download "$package")
done
for package in wabt binaryen; do
    fetch_suite sid "$package" || fetch_suite "$own" "$package"
done
unpack_tools sid wasm-tools wasm2wat wat2wasm
unpack_packages sid
date +%F >"$work/installed"
