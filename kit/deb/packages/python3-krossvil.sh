# To be sourced by kit/deb/build: the module for Python, with its page and the notebook.
# shellcheck shell=bash disable=SC2154

fill() {
    local module=$root/usr/lib/python3/dist-packages/krossvil
    mkdir -p "$module" "$doc/examples" "$doc/docs"
    cp kit/python/krossvil/{*.py,py.typed} "$module"
    cp kit/deb/python.md "$doc/README.md"
    cp docs/PYTHON.md "$doc/docs" # where the notebook's link leads
    cp -r examples/season.ipynb examples/season examples/classroom examples/changed-verdict "$doc/examples"
    maintainer_script postinst configure 'py3compile -p python3-krossvil'
    maintainer_script prerm remove 'py3clean -p python3-krossvil'
}

# Modules are compiled when they are installed, and what was made of them goes with them.
# shellcheck disable=SC2016
maintainer_script() { # NAME WHEN COMMAND
    printf '#!/bin/sh\nset -e\nif [ "$1" = %s ] && [ -z "$DPKG_ROOT" ]; then\n    %s\nfi\n' "$2" "$3" >"$root/DEBIAN/$1"
    chmod +x "$root/DEBIAN/$1"
}

control() {
    cat <<END
Section: python
Depends: python3 (>= 3.9), libkrossvil-dev (>= $version)
Suggests: jupyter-notebook, python3-matplotlib, python3-pandas
Description: check, run and time polling controllers, from Python
 Polling controllers (PLC-Automata) poll an input, test it and tick. This
 module calls the proved library that checks their tables and journals, runs
 them, and calculates reaction times; for notebooks it has records, a report
 of a season of journals, and DataFrames.
END
}
