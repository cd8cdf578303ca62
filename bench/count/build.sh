# Builds and runs programs under the counting plugin: sourced after machine.sh and archives.sh.

PLUGIN=$ROOT/target/tests/libcount.so

# The plugin is code of this machine, not of the emulated one.
build_plugin() {
    gcc -std=c11 -O2 -Wall -Wextra -fPIC -shared "$ROOT/bench/count/plugin.c" -o "$PLUGIN"
}

# counted NAME WORDS...: builds bench/NAME.rs and runs it, counting.
counted() {
    local name=$1
    "${RUSTC[@]}" -O -C relocation-model=static "$ROOT/bench/$name.rs" -o "$BUILD/bench_$name" \
        -L "$ARCHIVES" -l "static=$(archive_of "$name")" \
        -L "$ROOT/target/tests/plain" -l static=plain
    "$QEMU" -plugin "$PLUGIN" "$BUILD/bench_$name" "${@:2}"
}
