# shellcheck shell=sh
# What the scripts that call the proved library or programs share. They read it at the repository's root.

archive=target/staticlib/liblibrary.a
# A relative folder is seen from where the script was called.
case ${LAVKKESTO_RUST-} in
'' | /*) ;;
*)
    LAVKKESTO_RUST=$OLDPWD/$LAVKKESTO_RUST
    export LAVKKESTO_RUST
    ;;
esac
rust=${LAVKKESTO_RUST:-../shared/docs/src}
mkdir -p compare/target || exit 2

# The first of these things that is not at hand, in words; nothing where all are.
lacking() {
    for thing in "$@"; do
        case $thing in
        x86-64)
            [ "$(uname -m)" = x86_64 ] && continue
            echo "the library is for x86-64 and this machine is not"
            ;;
        rust)
            [ -r "$rust/src/ga/problem/local_search.rs" ] && continue
            echo "the published Rust is not at hand (LAVKKESTO_RUST names its folder)"
            ;;
        *)
            command -v "$thing" >/dev/null 2>&1 && continue
            echo "$thing is not installed"
            ;;
        esac
        return
    done
}

# Leaves with 3, and one line of the script named, where something is lacking.
content_without() {
    [ -z "$2" ] && return
    echo "$1: not run, $2"
    exit 3
}

# Runs a command of a build and is silent unless it fails; then it leaves with 2.
build() {
    script=$1
    shift
    "$@" >compare/target/build.log 2>&1 && return
    cat compare/target/build.log
    echo "$script: not built"
    exit 2
}

# Whether something is there, and nothing that the crates are made of is younger.
is_current() {
    [ -e "$1" ] && [ -z "$(find crates.txt crates/*/src crates/*/specs crates/*/proofs -newer "$1" | head -n 1)" ]
}

# The archive, unless nothing in the crates is younger than it. It goes by the name of the crate whose calls it has.
make_archive() {
    is_current "$archive" && return
    made=crates/library_c/out/liblibrary_c.a
    over_the_gate || (cd crates/library_c && rt lib) || return
    mkdir -p "$(dirname "$archive")" && cp "$made" "$archive"
}

# `rt ci` leaves each library in its crate's out/, without the mark that `rt lib` asks of one, so that would prove each anew. Where all
# that library_c uses were left by now and nothing in the crates is younger, library_c alone is proved here, and compiled over them.
over_the_gate() {
    kit=$(dirname "$(rt doc)")
    uses=$(sed -n 's/^library_c staticlib://p' crates.txt)
    set -- --extern "core=$kit/rlibs/core.rlib" --extern "std=$kit/rlibs/std.rlib" -L "dependency=$kit/rlibs"
    for name in $uses; do
        is_current "crates/$name/out/rlib/$name.rlib" || return
        set -- "$@" --extern "$name=../$name/out/rlib/$name.rlib"
    done
    set -- "$@" --antt-project "$kit/rattle/logic/antt-project.json" --logic-built "$kit/logic_built" --toolchain "$kit/toolchain"
    (cd crates/library_c && mkdir -p out && "$kit/bin/rattle" build --crate-name library_c --crate-type staticlib src/lib.rt "$@" \
        --backend llvm -o out/liblibrary_c.a)
}

# The program of a crate, crates/NAME/out/NAME, unless nothing in the crates is younger than it. `rt run` also runs it, once.
make_program() {
    is_current "crates/$1/out/$1" && return
    (cd "crates/$1" && rt run <stdin && touch "out/$1") || is_current "crates/$1/out/$1"
}

# A program in C with the library.
compile() {
    cc -std=c11 -Wall -Wextra -Werror -O1 -g -Iinclude "$1" "$archive" -o "$2"
}
