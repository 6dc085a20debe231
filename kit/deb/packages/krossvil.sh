# To be sourced by kit/deb/build: the command, its manual page, its completion, the page and the examples.
# shellcheck shell=bash disable=SC2154

fill() {
    local file kit=$root/usr/share/krossvil completions=$root/usr/share/bash-completion/completions
    for file in krossvil.wasm krossvil.html; do
        [ -s "$out/$file" ] || { echo "kit/deb/build: no $out/$file" >&2; exit 1; }
    done
    mkdir -p "$kit" "$root/usr/bin" "$root/usr/share/man/man1" "$doc/examples" "$completions"
    node kit/command/build
    cp -r kit/krossvil kit/package.json "$out/krossvil.cjs" "$out/parts" "$out/krossvil.wasm" "$out/krossvil.html" "$kit"
    ln -s ../share/krossvil/krossvil "$root/usr/bin/krossvil"
    node kit/deb/manual.js manual | gzip -9n >"$root/usr/share/man/man1/krossvil.1.gz"
    node kit/deb/manual.js completion >"$completions/krossvil"
    cp kit/NOTATION.md kit/deb/README.md "$doc"
    cp kit/samples/*.kv examples/classroom/table.bin examples/classroom/journal.bin "$doc/examples"
}

control() {
    cat <<END
Section: electronics
Depends: nodejs (>= 18)
Recommends: librsvg2-bin
Suggests: bash-completion, graphviz, gtkwave
Description: check, run, explain and draw polling controllers
 Polling controllers (PLC-Automata) poll an input, test it and tick. This
 command checks their tables and journals with a proved library, explains why a
 journal is refused, draws timing diagrams and automata, and calculates
 reaction times.
END
}
