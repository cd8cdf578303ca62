# Which machine this is, and what it must have: sourced by all that build or run x86-64 code.
# Sets ROOT, CC, NM, AR, SIZE, OBJDUMP, OBJCOPY, QEMU, RUSTC, RUN, and NATIVE, which compiles for the
# machine itself; `need PACKAGE...` installs.

ROOT=$(cd "$(dirname "${BASH_SOURCE[0]}")/.." && pwd)

# Debian packages by name; the package lists are fetched only when something is missing.
need() {
    local package missing=()
    for package in "$@"; do
        dpkg-query -W -f '${db:Status-Status}\n' "$package" 2>/dev/null | grep -qx installed ||
            missing+=("$package")
    done
    [ ${#missing[@]} -eq 0 ] && return
    echo "installing ${missing[*]}" >&2
    apt-get update -qq >&2 </dev/null
    DEBIAN_FRONTEND=noninteractive apt-get install -y -qq --no-install-recommends \
        "${missing[@]}" >&2 </dev/null
}

# The compiler and the tools carry the target's name on both kinds of machine.
CC=x86_64-linux-gnu-gcc NM=x86_64-linux-gnu-nm AR=x86_64-linux-gnu-ar SIZE=x86_64-linux-gnu-size
OBJDUMP=x86_64-linux-gnu-objdump OBJCOPY=x86_64-linux-gnu-objcopy
QEMU=qemu-x86_64

case $(uname -m) in
x86_64)
    need gcc libc6-dev binutils qemu-user python3
    command -v rustc >/dev/null || need rustc
    NATIVE=(rustc --edition 2021)
    RUSTC=("${NATIVE[@]}")
    RUN=()
    ;;
aarch64)
    dpkg --print-foreign-architectures | grep -qx amd64 || dpkg --add-architecture amd64
    need gcc libc6-dev gcc-x86-64-linux-gnu libc6-dev-amd64-cross binutils-x86-64-linux-gnu \
        qemu-user python3 rustc libstd-rust-dev:amd64
    # The distribution's own rustc has the x86-64 library; another may come first in PATH.
    NATIVE=("$(dpkg -L rustc | grep '/bin/rustc$')" --edition 2021)
    RUSTC=("${NATIVE[@]}" --target x86_64-unknown-linux-gnu -C linker="$CC")
    RUN=("$QEMU")
    ;;
*)
    echo "no way to run x86-64 code on $(uname -m)" >&2
    exit 1
    ;;
esac
