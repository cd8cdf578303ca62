# Where the archives under test are, and what they export: sourced after machine.sh.
# Sets KIND (proved, or plain for bench/plain's C versions), ARCHIVES (a folder), BUILD, the lists
# EXPORTS and ARCHIVE_NAMES, and what links all archives from C and from Rust: C_LINKS, RUST_LINKS;
# `build_server`, then `rust_test NAME` run the tests in Rust.

KIND=${1:-proved}
BUILD=$ROOT/target/tests/$KIND
mkdir -p "$BUILD"

# The lines of tests/exports.txt: archive, name.
listed() {
    grep -v '^#' "$ROOT/tests/exports.txt"
}

archive_of() {
    listed | awk -v name="$1" '$2 == name { print $1 }'
}

exports_of() {
    listed | awk -v archive="$1" '$1 == archive { print "oorlichday_" $2 }' | sort
}

mapfile -t EXPORTS < <(listed | awk '{ print $2 }')
mapfile -t ARCHIVE_NAMES < <(listed | awk '{ print $1 }' | sort -u)

# The plain C versions: libplain.a under their own names, libnamed.a under the library's.
build_plain() {
    local source name rename=()
    for name in check order verdict verdict_of_records read list take precedes \
        line names pack packed_length; do
        rename+=(--redefine-sym "plain_$name=oorlichday_$name")
    done
    mkdir -p "$ROOT/target/tests/plain"
    (
        cd "$ROOT/target/tests/plain"
        rm -f ./*.a ./*.o
        for source in "$ROOT"/bench/plain/*.c; do
            name=$(basename "$source" .c)
            "$CC" -std=c11 -O2 -Wall -Wextra -Werror -c "$source" -o "plain_$name.o"
            "$OBJCOPY" "${rename[@]}" "plain_$name.o" "named_$name.o"
        done
        "$AR" rcs libplain.a plain_*.o
        "$AR" rcs libnamed.a named_*.o
    )
}

case $KIND in
proved) ARCHIVES=$ROOT/target/staticlib ;;
plain)
    ARCHIVES=$ROOT/target/tests/plain
    ARCHIVE_NAMES=(named)
    archive_of() { echo named; }
    build_plain
    ;;
*)
    echo "usage: $0 [proved|plain]" >&2
    exit 2
    ;;
esac

C_LINKS=(-L "$ARCHIVES") RUST_LINKS=(-L "$ARCHIVES")
for archive in "${ARCHIVE_NAMES[@]}"; do
    C_LINKS+=(-l "$archive") RUST_LINKS+=(-l "static=$archive")
done

# Where the machine cannot run the archives, the Rust tests run on it all the same, and a process under
# the emulator calls the archives for them.
build_server() {
    [ ${#RUN[@]} -gt 0 ] || return 0
    "${RUSTC[@]}" -O "$ROOT/tests/rust/serve.rs" -o "$BUILD/serve" "${RUST_LINKS[@]}"
    export OORLICHDAY_EMULATOR=${RUN[0]} OORLICHDAY_SERVER=$BUILD/serve
}

# rust_test NAME WORDS...: builds a test of tests/rust and runs those of its tests that the words name.
rust_test() {
    local links=()
    [ ${#RUN[@]} -gt 0 ] || links=("${RUST_LINKS[@]}")
    "${NATIVE[@]}" -O --test "$ROOT/tests/rust/$1.rs" -o "$BUILD/rust_$1" "${links[@]}"
    "$BUILD/rust_$1" "${@:2}"
}
