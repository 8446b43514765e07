# The processors that the library is built for: for tools/build-lib, tools/compare and tools/test-lib, sourced as common.sh is.
# shellcheck shell=bash
# shellcheck source=tools/lib/common.sh
. "${root:?}/tools/lib/common.sh"

# This machine's own, or nothing where the library is not built for it.
own_target() {
    case $(uname -m) in
    x86_64) echo x86-64 ;;
    aarch64 | riscv64) uname -m ;;
    esac
}

# The target where none is named: this machine's own, else x86-64.
default_target() {
    local own
    own=$(own_target)
    echo "${own:-x86-64}"
}

need_known() { # TARGET
    case $1 in
    x86-64 | aarch64 | riscv64) ;;
    *) complain 2 "no such target: ${1:-(nothing)}; there are x86-64, aarch64 and riscv64" ;;
    esac
}

# The archive, from the repository's folder.
archive_of() { # TARGET
    case $1 in
    x86-64) echo target/staticlib/libnsq_c.a ;;
    *) echo "target/staticlib/$1/libnsq_c.a" ;;
    esac
}

# The first of the named commands that is there, else the first name.
first_of() { # NAME...
    local name
    for name; do
        if command -v "$name" >/dev/null; then break; fi
        name=$1
    done
    echo "$name"
}

# Sets cc, the C compiler with its words, and emulator, empty on the target's own processor; and the Debian packages that have them. What is
# compiled for another processor is static, so that the emulator needs no libraries of it.
# shellcheck disable=SC2034
choose_tools() { # TARGET
    cc=(gcc -O2) emulator=() cc_packages="gcc libc6-dev" emulator_packages=qemu-user
    [ "$1" != "$(own_target)" ] || return 0
    case $1 in
    x86-64)
        cc=(x86_64-linux-gnu-gcc -O2 -static) cc_packages="gcc-x86-64-linux-gnu libc6-dev-amd64-cross"
        emulator=("$(first_of qemu-x86_64 qemu-x86_64-static)")
        ;;
    aarch64)
        cc=(aarch64-linux-gnu-gcc -O2 -static) cc_packages="gcc-aarch64-linux-gnu libc6-dev-arm64-cross"
        emulator=("$(first_of qemu-aarch64 qemu-aarch64-static)")
        ;;
    riscv64)
        cc=(riscv64-linux-gnu-gcc -O2 -static) cc_packages="gcc-riscv64-linux-gnu libc6-dev-riscv64-cross"
        emulator=("$(first_of qemu-riscv64 qemu-riscv64-static)")
        ;;
    esac
}

# A sentence for each thing that is missing to run C with the archive, after choose_tools.
missing_tools() { # TARGET
    local archive
    archive=$(archive_of "$1")
    [ -f "$root/$archive" ] || say "there is no $archive: run tools/build-lib --target $1"
    command -v "${cc[0]}" >/dev/null || say "the C compiler ${cc[0]} is missing (Debian: $cc_packages)"
    [ ${#emulator[@]} -eq 0 ] || command -v "${emulator[0]}" >/dev/null || say "the emulator ${emulator[0]} is missing (Debian: $emulator_packages)"
} 2>&1
