# What all scripts share: sourced, after `root` (the repository's folder) and `tool` (the name that messages carry) are set. Messages, the help
# of a script, and where the Rattle kit is.
# shellcheck shell=bash
: "${root:?}" "${tool:?}"

say() { echo "$tool: $*" >&2; }
complain() { # STATUS SENTENCE: says it and ends
    say "${*:2}"
    exit "$1"
}

# The comment at the head of a script, which is its help.
print_head() { # FILE
    awk 'NR > 1 { if (!/^#/) exit; sub(/^# ?/, ""); print }' "$1"
}

need_rt() {
    command -v rt >/dev/null && return
    complain 127 "the command rt is missing. It belongs to the Rattle kit, the checker and compiler of the language Rattle, in which this" \
        "project is written: put the kit's folder bin on PATH"
}

# The folder of the kit, which is that of the command rt.
kit_home() {
    need_rt
    dirname "$(dirname "$(readlink -f "$(command -v rt)")")"
}

# The folder of the kit's compiler.
kit_toolchain() { echo "$(kit_home)/toolchain"; }
