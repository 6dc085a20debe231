# To be sourced by kit/deb/build: the library for C, with header, archive, shared object, pkg-config file and the example programs.
# shellcheck shell=bash disable=SC2154
# shellcheck source=kit/shared/processor.sh
. kit/shared/processor.sh

fill() {
    local triplet libraries
    kit/shared/build "$processor"
    triplet=$(triplet_of "$processor")
    libraries=$root/usr/lib/$triplet
    mkdir -p "$root/usr/include" "$libraries/pkgconfig" "$doc/examples"
    cp include/krossvil.h "$root/usr/include"
    cp -P "$out/$processor-linux/"libkrossvil.{a,so*} "$libraries"
    pkg_config_file "/usr/lib/$triplet" /usr/include >"$libraries/pkgconfig/krossvil.pc"
    cp kit/deb/library.md "$doc/README.md"
    cp examples/*.[ch] examples/classroom/*.bin "$doc/examples"
    echo "libkrossvil ${version%%.*} libkrossvil-dev (>= $version)" >"$root/DEBIAN/shlibs"
    echo 'activate-noawait ldconfig' >"$root/DEBIAN/triggers"
}

control() {
    cat <<END
Section: libdevel
Multi-Arch: same
Depends: libc6 (>= 2.17)
Recommends: libc6-dev
Suggests: pkg-config
Description: check, run and time polling controllers, from C
 Polling controllers (PLC-Automata) poll an input, test it and tick. This
 proved library checks their tables and journals, runs them, and calculates
 reaction times. It has the header, the archive, the shared object, a file for
 pkg-config and the example programs.
END
}
