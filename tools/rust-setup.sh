# Sourced by the other scripts, in the repository's root. At once: a Rust compiler and a linker, from Debian's packages where the machine has
# none. When called:
#   archive NAME   sees that target/staticlib/libNAME.a is of today's crates: the exports of crates/NAME_c
#   x86_rust       from then on `cargo .. --target "$x86"` links such archives and runs what it made. Rattle compiles for x86-64 alone, so
#                  on an Arm machine it runs under the kit's emulator
x86=x86_64-unknown-linux-gnu

fail() {
    echo "$*" >&2
    exit 2
}

# need COMMAND PACKAGE..
need() {
    local command=$1
    shift
    command -v "$command" >/dev/null && return
    apt-get -qq update && apt-get -qq -y --no-install-recommends install "$@" >/dev/null || fail "no $command, and Debian gave none"
}

# `rt lib` makes it in the out/ of the crate of its exports; what the compilers link is a copy under the library's name, made anew only when
# something changed since
archive() {
    local made=target/staticlib/lib$1.a said
    if [ -f "$made" ] && [ -z "$(find crates crates.txt "$(readlink -f "$(command -v rt)")" -path 'crates/*/out' -prune -o -newer "$made" -print -quit)" ]; then
        return
    fi
    said=$(cd "crates/${1}_c" && rt lib 2>&1) || fail "$said"
    mkdir -p target/staticlib
    cp "crates/${1}_c/out/lib${1}_c.a" "$made.new"
    mv -f "$made.new" "$made"
}

x86_rust() {
    export CARGO_TARGET_X86_64_UNKNOWN_LINUX_GNU_RUSTFLAGS="-L native=$PWD/target/staticlib"
    case $(uname -m) in
    x86_64) ;;
    aarch64) x86_rust_on_arm ;;
    *) fail "no way to run x86-64 code on $(uname -m)" ;;
    esac
}

# ---- Arm alone: a compiler that has the x86-64 standard library, from Debian's packages, and the kit's clang as its linker. They go into the
# user's cache, which every checkout shares, and are not installed.

x86_rust_on_arm() {
    local kit tools ready cross id variable
    kit=${RATTLE_HOME:-$(dirname "$(dirname "$(readlink -f "$(command -v rt)")")")}
    tools=$kit/on/aarch64/toolchain
    cross=${XDG_CACHE_HOME:-$HOME/.cache}/coilharbour/x86-rust
    # another kit, or another way of setting up (the first number), starts anew
    id="1 $(cksum <"$kit/KIT-ID") $kit"
    ready=$(cat "$cross/ready" 2>/dev/null) || ready=''
    [ "$ready" = "$id" ] || make_x86_rust "$cross" "$tools" "$id" || exit 2
    for variable in ${!QEMU_@}; do
        unset "$variable"
    done
    export RUSTC=$cross/bin/rustc
    export CARGO_TARGET_X86_64_UNKNOWN_LINUX_GNU_LINKER=$cross/bin/cc
    # a backtrace would open /proc/self/maps: see link_with_kit
    export CARGO_TARGET_X86_64_UNKNOWN_LINUX_GNU_RUNNER="$tools/bin/qemu-x86_64 -E RUST_BACKTRACE=0"
}

# make_x86_rust CROSS TOOLS ID: in a folder beside it, which takes its place once it has compiled and run a program. In a shell of its own, for
# the trap
make_x86_rust() (
    cross=$1 tools=$2 id=$3 new=$1.$$
    trap 'rm -rf "$new"' EXIT
    rm -rf "$new"
    mkdir -p "$new"
    fetch_compiler "$new"
    link_with_kit "$new" "$tools"
    echo 'fn main() { print!("{}", 6 * 7) }' >"$new/try.rs"
    "$new/bin/rustc" --target "$x86" -C linker="$new/bin/cc" -o "$new/try" "$new/try.rs" || fail 'the x86-64 Rust that was set up compiles nothing'
    answer=$("$tools/bin/qemu-x86_64" -E RUST_BACKTRACE=0 "$new/try") && [ "$answer" = 42 ] || fail 'what the x86-64 Rust compiled does not run'
    echo "$id" >"$new/ready"
    rm -rf "$cross"
    mv "$new" "$cross"
)

# fetch_compiler DIR: rustc for this machine, its libraries, and the standard library for both
fetch_compiler() {
    local dir=$1 version got='' std llvm package
    local apt=(-qq -o APT::Architectures::=arm64 -o APT::Architectures::=amd64 -o Dir::State::lists="$dir/apt/lists" -o Dir::Cache="$dir/apt/cache"
        -o Acquire::Languages=none -o Acquire::Retries=3 -o APT::Sandbox::User=root)
    mkdir -p "$dir/apt/lists/partial" "$dir/apt/cache/archives/partial"
    apt-get "${apt[@]}" update || fail 'apt-get update failed'
    # newest first: both halves must be of one version, and Debian may be late with one
    for version in $(apt-cache "${apt[@]}" madison rustc-web | awk '$5 !~ /Sources/ && !seen[$3]++ { print $3 }'); do
        if (cd "$dir/apt" && apt-get "${apt[@]}" download "rustc-web:arm64=$version" "libstd-rust-web-dev:amd64=$version") 2>/dev/null; then
            got=$version
            break
        fi
    done
    [ -n "$got" ] || fail 'Debian has no rustc-web for arm64 and amd64 of one version'
    std=$(depends_on "$dir"/apt/libstd-rust-web-dev_*.deb 'libstd-rust-web-[0-9.]*')
    (cd "$dir/apt" && apt-get "${apt[@]}" download "$std:arm64=$got") || fail "Debian gave no $std"
    llvm=$(depends_on "$dir/apt/$std"_*.deb 'libllvm[0-9.]*')
    [ -z "$llvm" ] || (cd "$dir/apt" && apt-get "${apt[@]}" download "$llvm:arm64") || fail "Debian gave no $llvm"
    for package in "$dir"/apt/*.deb; do
        dpkg-deb -x "$package" "$dir" || fail "$package can't be unpacked"
    done
    rm -rf "${dir:?}/apt" "${dir:?}/usr/share"
    # what LLVM's library itself needs is there on a machine with clang or llvm; elsewhere it is installed
    if LD_LIBRARY_PATH=$dir/usr/lib/aarch64-linux-gnu ldd "$dir/usr/bin/rustc" | grep -q 'not found'; then
        apt-get -qq update && apt-get -qq -y --no-install-recommends install "$llvm" >/dev/null || fail "Debian gave no $llvm"
    fi
}

# depends_on PACKAGE PATTERN: the first package that it depends on with such a name
depends_on() {
    dpkg-deb -f "$1" Depends | grep -o "$2" | head -n 1
}

# link_with_kit DIR TOOLS: the compiler as it is to be called, and a linker over the kit's clang, lld and C library. Rust takes a linker for
# one of C's only if it is called cc.
link_with_kit() {
    local dir=$1 clang=$2/bin/clang lib=$2/lib name
    mkdir -p "$dir/bin" "$dir/sys"
    cat >"$dir/bin/rustc" <<'RUSTC'
#!/bin/sh
dir=$(dirname "$(dirname "$0")")
LD_LIBRARY_PATH=$dir/usr/lib/aarch64-linux-gnu exec "$dir/usr/bin/rustc" --sysroot "$dir/usr" "$@"
RUSTC
    cat >"$dir/bin/cc" <<CC
#!/bin/sh
dir=\$(dirname "\$(dirname "\$0")")
exec $clang --target=$x86 -fuse-ld=lld -B$lib -L"\$dir/sys" -Wl,--dynamic-linker=$lib/ld-linux-x86-64.so.2 -Wl,-rpath,$lib "\$@" "\$dir/sys/stub.o"
CC
    chmod +x "$dir/bin/rustc" "$dir/bin/cc"
    echo "GROUP ( $lib/libc.so.6 $lib/libc_nonshared.a AS_NEEDED ( $lib/ld-linux-x86-64.so.2 ) )" >"$dir/sys/libc.so"
    ln -sf "$lib/libm.so.6" "$dir/sys/libm.so"
    ln -sf "$lib/libgcc_s.so.1" "$dir/sys/libgcc_s.so"
    for name in util rt pthread dl; do
        printf '!<arch>\n' >"$dir/sys/lib$name.a"
    done
    # The kit's emulator crashes when a program opens /proc/self/maps, as Rust's standard library does at its start, through this function. It
    # takes an error for `no guard page known`.
    echo 'int pthread_getattr_np(unsigned long t, void *a) { (void)t; (void)a; return 38; }' >"$dir/sys/stub.c"
    "$clang" --target="$x86" -O2 -fPIC -c "$dir/sys/stub.c" -o "$dir/sys/stub.o" || fail "the kit's clang does not compile for x86-64"
}

PATH=$HOME/.cargo/bin:$PATH
need cargo cargo rustc
need cc gcc libc6-dev
unset RUSTFLAGS CARGO_ENCODED_RUSTFLAGS RUSTC_WRAPPER
