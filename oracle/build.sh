# Sourced, not run. Builds the Rust's text over the stand-ins, for oracle/run and for whatever else runs it.
# It expects: root (the repository), source (the folder that has the crate's src/), build (the folder to build in).
# POSIX sh.

say() { printf 'oracle: %s\n' "$*" >&2; }
die() { say "$*"; exit 2; }

# Installs Debian's packages by name; where that is not possible, says which ones are missing.
install_packages() {
    say "installing: $*"
    if [ "$(id -u)" != 0 ] || ! command -v apt-get >/dev/null; then
        die "missing, and not installed since this is not root on Debian: $* (install them and run this again)"
    fi
    case "$*" in *:amd64*) [ "$(dpkg --print-architecture)" = amd64 ] || dpkg --add-architecture amd64 ;; esac
    apt-get update -q >"$build/apt.log" 2>&1 || die "apt-get update failed; see $build/apt.log"
    DEBIAN_FRONTEND=noninteractive apt-get install -y -q --no-install-recommends "$@" >>"$build/apt.log" 2>&1 ||
        die "apt-get install $* failed; see $build/apt.log"
}

# The tools for this machine's own programs: rustc, cc, ar.
tools_native() {
    missing=
    command -v rustc >/dev/null || missing="$missing rustc"
    command -v gcc >/dev/null || missing="$missing gcc libc6-dev"
    [ -z "$missing" ] || install_packages $missing
    rustc=rustc cc=gcc ar=ar rust_target= runner=
}

# The tools for x86-64 programs, which is what the archive links into: the machine's own on x86-64; else Debian's compilers for
# x86-64 and an emulator, with the loader and C library of those compilers.
tools_x86_64() {
    if [ "$(uname -m)" = x86_64 ]; then
        tools_native
        return
    fi
    missing=
    [ -x /usr/bin/rustc ] || missing="$missing rustc"
    ls /usr/lib/rustlib/x86_64-unknown-linux-gnu/lib/libstd-*.rlib >/dev/null 2>&1 || missing="$missing libstd-rust-dev:amd64"
    command -v x86_64-linux-gnu-gcc >/dev/null || missing="$missing gcc-x86-64-linux-gnu"
    [ -e /usr/x86_64-linux-gnu/lib/libc.so ] || missing="$missing libc6-dev-amd64-cross"
    command -v qemu-x86_64 >/dev/null || missing="$missing qemu-user"
    [ -z "$missing" ] || install_packages $missing
    rustc=/usr/bin/rustc cc=x86_64-linux-gnu-gcc ar=x86_64-linux-gnu-ar
    rust_target="--target x86_64-unknown-linux-gnu -C linker=x86_64-linux-gnu-gcc"
    libraries=/usr/x86_64-linux-gnu/lib
    runner="qemu-x86_64 $libraries/ld-linux-x86-64.so.2 --library-path $libraries"
}

# compile_crate NAME FILE [WORDS..]: one library of Rust, with those built before at hand.
compile_crate() {
    name=$1 file=$2
    shift 2
    $rustc $rust_target --edition 2021 --cap-lints allow --crate-type rlib --crate-name "$name" "$file" -L "$out" -o "$out/lib$name.rlib" "$@" ||
        die "$file does not compile"
}

# build_rust OUT [WORDS..]: the crate's ten files, unchanged and where they are, over the stand-ins. WORDS go to rustc, as -O.
build_rust() {
    out=$1
    shift
    [ -f "$source/src/lib.rs" ] || die "missing: the crate's files in $source/src (name their folder by --source DIR)"
    mkdir -p "$out"
    compile_crate ndshape "$root/oracle/standin/ndshape.rs" "$@"
    compile_crate ilattice "$root/oracle/standin/ilattice.rs" "$@"
    compile_crate ndcopy "$root/oracle/standin/ndcopy.rs" --extern ndshape="$out/libndshape.rlib" "$@"
    compile_crate block_mesh "$source/src/lib.rs" --extern ndshape="$out/libndshape.rlib" --extern ilattice="$out/libilattice.rlib" \
        --extern ndcopy="$out/libndcopy.rlib" "$@"
}

# The files of the second reading.
reading_parts='meshing geometry obj'

# build_reading OUT: the second reading of documents 01 and 02, as an archive.
build_reading() {
    for part in $reading_parts; do
        $cc -std=c11 -O2 -Wall -Wextra -Werror -ffp-contract=off -c "$root/oracle/reading/$part.c" -o "$1/$part.o" || die "$part.c does not compile"
    done
    rm -f "$1/libreading.a"
    (cd "$1" && $ar rcs libreading.a $(printf '%s.o ' $reading_parts)) || die "the second reading is not archived"
}
