# To be sourced: which processor this is, by Debian's name, and the C compiler for that or the other, installed where it is missing.
# shellcheck shell=bash

# shellcheck source=host/x86-64.sh
. host/x86-64.sh

this_processor() { dpkg --print-architecture; }

triplet_of() { # PROCESSOR
    case $1 in
    amd64) echo x86_64-linux-gnu ;;
    arm64) echo aarch64-linux-gnu ;;
    *) echo "no shared object for $1; there are: amd64 arm64" >&2 && return 1 ;;
    esac
}

compiler_for() { # PROCESSOR
    if [ "$1" = "$(this_processor)" ]; then echo gcc; else echo "$(triplet_of "$1")-gcc"; fi
}

# It links a program, and so has a C library.
install_compiler() { # PROCESSOR
    local name=gcc library=libc6-dev triplet
    triplet=$(triplet_of "$1")
    if [ "$1" != "$(this_processor)" ]; then
        name=gcc-${triplet//_/-}
        library=libc6-dev-$1-cross
    fi
    echo 'int main(void) { return 0; }' | "$(compiler_for "$1")" -xc - -o /dev/null 2>/dev/null || install_packages "$name" "$library"
}

# The file for pkg-config, for a library and a header that stand in these folders.
pkg_config_file() { # LIBDIR INCLUDEDIR
    cat <<END
libdir=$1
includedir=$2

Name: krossvil
Description: check, run and time polling controllers
Version: $(sed -n 's/^#define KROSSVIL_VERSION "\(.*\)"$/\1/p' include/krossvil.h)
Libs: -L\${libdir} -lkrossvil
Cflags: -I\${includedir}
END
}
