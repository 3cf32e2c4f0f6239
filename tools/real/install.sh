#!/bin/sh
# install.sh WORK: installs what tools/real.sh needs, as root and with apt-get. Packages that are already installed are not fetched again.
#
# Compilers and libraries for wasm32 come from the release that the machine runs: the newest `clang-N` and `lld-N` that it offers, `wasi-libc`,
# and the libraries for C++ and Rust. Debian unstable has newer versions of the assemblers and of most packages that contain modules. These
# packages are unpacked under WORK and not installed. Their programs run there, with the loader and the libraries of the same packages.
set -eu
work=$1
. "$(dirname "$0")/../debian.sh"
PEERS="wasm-tools wabt binaryen"
PACKAGES="esbuild-wasm guile-hoot node-csl-validator-wasm pdfjs-jbig2 pdfjs-openjpeg pdfjs-qcms pdfjs-quickjs golang-github-tetratelabs-wazero-dev"

# Prints the newest version of LLVM for which apt-cache lists a clang, an lld and a library for wasm32.
newest_llvm() {
    apt-cache search --names-only '^libclang-rt-[0-9]+-dev-wasm32$' | sed 's/^libclang-rt-\([0-9]*\)-.*/\1/' | sort -rn | while read -r version; do
        if apt-cache show "clang-$version" "lld-$version" >/dev/null 2>&1; then
            echo "$version"
            break
        fi
    done
}

install_compilers() {
    apt-get update -q
    version=$(newest_llvm)
    apt-get install -yq --no-install-recommends python3 "clang-$version" "lld-$version" "libclang-rt-$version-dev-wasm32" \
        "libc++-$version-dev-wasm32" wasi-libc libstd-rust-dev-wasm32
}

fetch_newer() {
    update_release sid
    # shellcheck disable=SC2086 # a list of words
    from_release sid -y --download-only install $PEERS
    for package in $PACKAGES; do
        (cd "$work/sid/packages" && from_release sid download "$package") || echo "real: package $package can't be downloaded" >&2
    done
}

mkdir -p "$work"
install_compilers
fetch_newer
unpack_tools sid wasm-tools wasm2wat wat2wasm wasm-as wasm-opt
unpack_packages sid
date +%F >"$work/installed"
