# To be sourced: how C for x86-64, which is what the library is compiled for, is built and run on this processor.
#   native    yes on x86-64, else no: then Debian's cross compiler and qemu stand in, installed where they are missing
#   compiler  the C compiler for x86-64, and link: words for its linking
#   own       the C compiler for this processor, for what needs no library
#   run       words before a program that runs it; emulator: the command that runs one on any processor
# shellcheck shell=bash disable=SC2034

emulator=qemu-x86_64-static
native=yes
compiler=gcc
own=gcc
link=()
run=()
if [ "$(uname -m)" != x86_64 ]; then
    native=no
    compiler=x86_64-linux-gnu-gcc
    link=(-static)
    run=("$emulator")
fi

# One test at a time installs, and no test looks for what is missing while another does: what is half installed is not there.
flock -s host true

install_packages() { # PACKAGES
    local as_root=()
    [ "$#" -gt 0 ] || return 0
    echo "installing $*"
    [ "$(id -u)" -eq 0 ] || as_root=(sudo -n)
    flock host "${as_root[@]}" sh -c 'export DEBIAN_FRONTEND=noninteractive
        apt-get -q update; apt-get -q -y --no-install-recommends install "$@"' sh "$@" </dev/null >/dev/null
}

# What is missing of all that this processor needs.
install_missing() {
    local missing=()
    command -v "$own" >/dev/null && echo 'int main(void) { return 0; }' | "$own" -xc - -o /dev/null 2>/dev/null ||
        missing+=(gcc libc6-dev)
    if [ "$native" = no ]; then
        command -v "$compiler" >/dev/null || missing+=(gcc-x86-64-linux-gnu)
        command -v "$emulator" >/dev/null || missing+=(qemu-user-static)
        case $("$compiler" -print-file-name=libc.a 2>/dev/null) in
        '' | libc.a) missing+=(libc6-dev-amd64-cross) ;; # no compiler, or it finds no C library
        esac
    fi
    install_packages "${missing[@]}"
}
