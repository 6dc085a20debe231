# To be sourced at the top: whether crates, libraries and programs stand here as `rt ci` proved and built them. It leaves in each
# crates/NAME/out/ the library or the program that it has proved, but says so nowhere; where a checkout had none before, .ci/run writes down
# in target/proved what it then had. What is built on it need not be proved once more.
# shellcheck shell=bash

sum_of_sources() { # of all that a proof depends on
    { rt version && cat crates.txt && if [ -e HANDLES ]; then cat HANDLES; fi &&
        find crates -name out -prune -o -type f -print0 | LC_ALL=C sort -z | xargs -0 sha256sum; } | sha256sum
}

# A library's `format` has the sums of its other files.
sum_of_proved() {
    { sum_of_sources && find crates -path 'crates/*/out/rlib/*.rlib/format' -print0 | LC_ALL=C sort -z | xargs -0r sha256sum &&
        find crates -path 'crates/*/src/main.rt' | LC_ALL=C sort | sed -E 's,(.*/(.*))/src/main.rt,\1/out/\2,' | xargs -r sha256sum; } | sha256sum
}

is_proved() { [ -s target/proved ] && [ "$(sum_of_proved 2>/dev/null)" = "$(cat target/proved)" ]; }

# Of what `rt` says while it proves one crate after another: a line for each as it begins.
tell_crates() { sed -nu 's/^rt: chose --jobs [0-9]* for \(.*\)/proving \1/p'; }
