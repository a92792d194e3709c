# Builds what is missing or older than its sources: the proved library, then the program. bin/hdf4 and bin/install read this file,
# with the root of the repository in `top`, and call `build`. What is up to date needs neither rt nor cargo. Paths are from the root.

unset CDPATH # `cd` would look there for a path that begins with bin/

program=cli/target/release/hdf4
library=target/staticlib/libhdf4.a
stamp=target/hdf4.built # as old as the sources of the program that stands

# Folders count too: one is newer where a file of it was added or taken away.
library_sources='crates.txt crates/*/src crates/*/specs crates/*/proofs'
program_sources='VERSION include cli/src cli/build.rs cli/Cargo.toml cli/Cargo.lock bindings/rust/src bindings/rust/sys
    bindings/rust/Cargo.toml bindings/rust/Cargo.lock'

# Ends with the status of files and the system.
fail() {
    echo "${0##*/}: $*" >&2
    exit 3
}

# Whether a file is there and nothing among other paths is newer; a path that is missing is not.
fresh() {
    fresh_file=$1
    shift
    [ -e "$fresh_file" ] && [ -z "$(find "$@" -newer "$fresh_file" -print -quit 2>/dev/null)" ]
}

# Whether program and library stand and are no older than their sources: one search of all of them.
up_to_date() {
    [ -x "$top/$program" ] && [ -e "$top/$stamp" ] && [ -e "$top/$library" ] && [ -z "$(
        cd -P -- "$top" || echo stale
        exec find $library_sources $program_sources "$library" \
            \( -newer "$stamp" -o -path 'crates*' -newer "$library" \) -print -quit 2>/dev/null
    )" ]
}

# Builds in a shell of its own, one build at a time.
build() {
    command -v find >/dev/null || fail "find is not on PATH, so that it cannot be seen what must be built"
    up_to_date || (
        cd -P -- "$top" && top=. && mkdir -p target && touch target/hdf4.lock || exit 3
        exec 9>target/hdf4.lock
        flock -n 9 || { echo "waiting for another build" >&2 && flock 9; } || exit 3
        up_to_date || { build_library && build_program; }
    )
}

# A source that changes during a build is newer than what is built.
build_library() {
    fresh "$library" $library_sources && return
    command -v rt >/dev/null || fail "the library must be built, and rt is not on PATH"
    echo "building the library: its proofs are checked first, which takes some minutes" >&2
    touch target/hdf4.begun
    # All that is said goes to a file, and what is said of each crate to the user.
    status=$({
        { (cd crates/hdf4 && rt lib) </dev/null 2>&1; echo $? >&3; } | tee target/hdf4.log | grep '^rt: [^n]' >&2
    } 3>&1)
    [ "$status" = 0 ] || fail "the library could not be built: target/hdf4.log says why"
    mkdir -p target/staticlib
    cp crates/hdf4/out/libhdf4.a "$library" || fail "$library could not be written"
    touch "$library"
    fresh target/hdf4.begun $library_sources || touch -r target/hdf4.begun "$library"
}

build_program() {
    command -v cargo >/dev/null || fail "the program must be built, and cargo is not on PATH"
    unset HDF4_LIB_DIR CARGO_BUILD_TARGET
    touch target/hdf4.begun
    cargo build --release --quiet --manifest-path cli/Cargo.toml --target-dir cli/target </dev/null >&2 ||
        fail "the program could not be built"
    [ -x "$program" ] || fail "cargo has built no $program"
    mv target/hdf4.begun "$stamp"
}
