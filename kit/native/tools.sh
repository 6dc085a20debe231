# To be sourced: where the toolchain stands, with its compiler and its linker, how a module is printed, and how a build stops.
# RATTLE_HOME, where it is set, stands for the toolchain's folder: kit/dist/try-arm has another compiler there.
# shellcheck shell=bash disable=SC2034
export LC_ALL=C
home=${RATTLE_HOME:-$(dirname "$(rt doc)")}
tools=$home/toolchain

stop() {
    printf '%s: %s\n' "$0" "$1" >&2
    exit 1
}

# The compiler puts the target's layout and triple in the place of the module's own, and changes nothing else.
print_module() { # TRIPLE FROM TO FORM [FLAGS]: -S is text, -c the toolchain's own form
    "$tools/bin/clang" --target="$1" "${@:5}" --no-default-config -Werror -Wno-override-module -emit-llvm -Xclang -disable-llvm-passes \
        "$4" -x ir "$2" -o "$3"
}
