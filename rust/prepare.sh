# Shared by ./test and ./tigmavresh: the packages they need, and how cargo, the C compiler and what these make are called.
# To be sourced by sh, with $top set to the repository's folder. It has variables and functions; until one of those is called
# nothing happens.
#
# The archive of the proved library is for x86-64. On another machine (Arm) the Rust and C code is compiled for x86-64 as
# well, and run under an emulator. All of it comes from Debian 12's packages; nothing that is there is installed again.

# shellcheck shell=sh disable=SC2034,SC2154 # $top comes from the script, and some of these go to it

build=$top/rust/target
logs=$build/log
archive=$top/target/staticlib/libscp.a

# Only the archive that was proved here is linked.
unset SCP_ARCHIVE_DIR

say() { printf '%s: %s\n' "${0##*/}" "$*" >&2; }
die() {
    say "$*"
    exit 2
}

# Runs a command with what it writes kept in a log, and shows the log's end if it fails.
quietly() { # LOG COMMAND...
    mkdir -p "$logs"
    log=$logs/$1
    shift
    "$@" >"$log" 2>&1 && return
    tail -n 30 "$log" >&2
    say "this failed: $* (all that it wrote: $log)"
    return 1
}

# ---- packages

is_native() { [ "$(uname -m)" = x86_64 ]; }
has_command() { command -v "$1" >/dev/null 2>&1; }
has_package() { [ "$(dpkg-query -W -f '${db:Status-Status}' "$1" 2>/dev/null)" = installed ]; }

# Prints the second number of a Rust compiler's version: 85 for 1.85.0.
rust_minor() { "$1" --version | sed -n 's/^rustc 1\.\([0-9]*\)\..*/\1/p'; } # COMPILER

# Whether there is a Rust compiler that is new enough, 1.85. Debian 12 has one, called rustc-web: its rustc is older.
has_rust() {
    has_command cargo && has_command rustc || return
    minor=$(rust_minor rustc)
    [ "${minor:-0}" -ge 85 ]
}

# Prints the names of the packages that are missing. The checks of style, which only ./test makes ($checks_style), need some more.
missing_packages() {
    wanted='librust-clap-dev librust-clap-complete-dev librust-csv-dev librust-hex-dev librust-indicatif-dev'
    wanted="$wanted librust-serde-derive-dev librust-serde-json-dev librust-signal-hook-dev librust-walkdir-dev"
    if is_native; then
        has_rust || wanted="$wanted cargo-web rustc-web"
        has_command gcc || wanted="$wanted gcc libc6-dev"
    else
        wanted="$wanted cargo-web rustc-web gcc-x86-64-linux-gnu libc6-dev-amd64-cross qemu-user"
    fi
    if [ -n "${checks_style:-}" ]; then
        wanted="$wanted shellcheck"
        if ! is_native || ! has_rust; then wanted="$wanted rustfmt-web"; fi
    fi
    for package in $wanted; do
        has_package "$package" || echo "$package"
    done
}

as_root() {
    if [ "$(id -u)" = 0 ]; then
        "$@"
    elif has_command sudo; then
        sudo "$@"
    else
        die "only root can do this, and there is no sudo: $*"
    fi
}

install_packages() { # NAME...
    has_command apt-get || die "these Debian packages are missing, and there is no apt-get: $*"
    say "installing Debian packages: $*"
    quietly apt-update.log as_root apt-get -qq update || die "Debian's list of packages could not be fetched"
    quietly apt-install.log as_root env DEBIAN_FRONTEND=noninteractive apt-get -qq -y --no-install-recommends install "$@" ||
        die "the packages could not be installed"
}

# ---- Rust's standard library for x86-64, on another machine

# It is in a Debian package for x86-64, which is fetched and unpacked below rust/target: nothing of another architecture is
# installed. It has to be of the very version of the compiler.
std_version() { dpkg-query -W -f '${Version}' rustc-web; }
std_folder() { echo "$build/std-$(std_version)"; }

fetch_std() {
    [ ! -d "$(std_folder)" ] || return 0
    say "fetching Rust's standard library for x86-64"
    room=$build/apt
    rm -rf "$room" && mkdir -p "$room/lists/partial" "$room/archives/partial" || return
    apt_x86 update && apt_x86 download "libstd-rust-web-dev=$(std_version)" || {
        # the compiler may be older than what Debian has today: bring it up to that
        install_packages cargo-web rustc-web
        apt_x86 download "libstd-rust-web-dev=$(std_version)"
    } || die "Rust's standard library for x86-64 could not be fetched"
    dpkg-deb -x "$room"/libstd-rust-web-dev_*.deb "$room/std" || die "Rust's standard library could not be unpacked"
    mv "$room/std" "$(std_folder)" && rm -rf "$room"
}

# apt-get as on an x86-64 machine, with files of its own.
apt_x86() (
    cd "$room" && quietly "apt-x86-$1.log" apt-get -qq -o APT::Architecture=amd64 -o APT::Architectures=amd64 \
        -o Dir::State::Lists="$room/lists" -o Dir::Cache="$room" -o Dir::State::Status=/dev/null \
        -o APT::Sandbox::User="$(id -un)" "$@"
)

# ---- using it

# Installs what is missing and sets: $cargo, $cc, and the variables that cargo reads.
prepare() {
    PATH=$PATH:${HOME:-/root}/.cargo/bin
    export CARGO_TARGET_DIR="$build"
    missing=$(missing_packages)
    # shellcheck disable=SC2086 # one word a package
    [ -z "$missing" ] || install_packages $missing
    cargo=cargo cc=gcc
    if ! is_native || ! has_rust; then
        cargo=/usr/bin/cargo
        export RUSTC=/usr/bin/rustc RUSTDOC=/usr/bin/rustdoc
    fi
    is_native || compile_for_x86
}

# Sets what cargo reads to compile for x86-64 on another machine, and to run what it has compiled.
compile_for_x86() {
    fetch_std
    cc=x86_64-linux-gnu-gcc
    CARGO_BUILD_TARGET=x86_64-unknown-linux-gnu
    CARGO_ENCODED_RUSTFLAGS=--sysroot=$(std_folder)/usr
    CARGO_ENCODED_RUSTDOCFLAGS=$CARGO_ENCODED_RUSTFLAGS
    CARGO_TARGET_X86_64_UNKNOWN_LINUX_GNU_LINKER=$cc
    CARGO_TARGET_X86_64_UNKNOWN_LINUX_GNU_RUNNER=$(runner)
    export CARGO_BUILD_TARGET CARGO_ENCODED_RUSTFLAGS CARGO_ENCODED_RUSTDOCFLAGS
    export CARGO_TARGET_X86_64_UNKNOWN_LINUX_GNU_LINKER CARGO_TARGET_X86_64_UNKNOWN_LINUX_GNU_RUNNER
}

# Prints what a program that was made is run with: nothing on x86-64.
runner() { is_native || echo qemu-x86_64 -L /usr/x86_64-linux-gnu; }

# Prints where cargo puts the programs that it makes.
programs() { if is_native; then echo "$build/release"; else echo "$build/x86_64-unknown-linux-gnu/release"; fi; }

# Calls cargo in rust/, with no network and the versions of Cargo.lock.
run_cargo() { # COMMAND WORDS...
    command=$1
    shift
    (cd "$top/rust" && "$cargo" "$command" --release --offline --locked "$@")
}

# The same for what links no archive, and needs no emulator.
run_cargo_here() ( # COMMAND WORDS...
    unset CARGO_BUILD_TARGET CARGO_ENCODED_RUSTFLAGS CARGO_ENCODED_RUSTDOCFLAGS
    run_cargo "$@"
)

# Whether a file is not there, or is older than some file in the folders after it.
is_stale() { # FILE FOLDER...
    file=$1
    shift
    [ ! -e "$file" ] || [ -n "$(find "$@" -type f -newer "$file" -print -quit)" ]
}

# Prints what the library is made of, as seen from the repository's folder.
library_sources() { ls -d crates.txt crates/*/src crates/*/specs crates/*/proofs 2>/dev/null; }

needs_the_kit() { has_command rt || die "the library is to be proved, and the Rattle kit (rt) is not there"; }

# Proves the library and writes its archive, under the name that programs link.
make_archive() {
    needs_the_kit
    (cd "$top/crates/scp_c" && quietly archive.log rt lib) || return
    mkdir -p "${archive%/*}" && cp "$top/crates/scp_c/out/libscp_c.a" "$archive"
}

# The same if the archive is not there or the library's sources are newer.
renew_archive() {
    # shellcheck disable=SC2046 # no blanks in these names
    (cd "$top" && is_stale "$archive" $(library_sources)) || return 0
    needs_the_kit
    say "proving and compiling the library; this takes some minutes, and is done once (what is proved so far: $logs/archive.log)"
    make_archive
}
