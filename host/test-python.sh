#!/usr/bin/env bash
# The library as a shared object, its packages, and the module for Python: its types; what it does with whatever it is given; every function
# against the archive called from C, on random and damaged input; the same on faults that are put into copies of it, and must be noticed;
# and the notebook of the examples. What is missing of Debian's packages is installed, and Debian's own Python is used.
# The last line is `N passed, M failed`.
#
#   host/test-python.sh [CASES [SEED]]
set -u
CDPATH='' cd -- "$(dirname -- "${BASH_SOURCE[0]}")/.." || exit 1

cases=${1-12000} # a case is several calls
seed=${2-1}
least=10000 # calls of the module's functions
python=/usr/bin/python3
tests=kit/python/test
out=target/python
# shellcheck source=host/counting.sh
. host/counting.sh

stop() { # MESSAGE: nothing more can be tried
    echo "FAILED  $1"
    failed=$((failed + 1))
    finish
}

part() { # COMMAND...: ends with a line `N passed, M failed`, which is added up
    local log=$out/part.log status
    "$@" >"$log" 2>&1
    status=$?
    cat "$log"
    if [[ $(tail -n 1 "$log") =~ ^([0-9]+)\ passed,\ ([0-9]+)\ failed$ ]]; then
        passed=$((passed + BASH_REMATCH[1]))
        failed=$((failed + BASH_REMATCH[2]))
        [ "$status" -eq 0 ] || [ "${BASH_REMATCH[2]}" -gt 0 ] || failed=$((failed + 1))
    else
        stop "$* broke off with status $status"
    fi
}

# ---- What is needed

# shellcheck source=kit/shared/processor.sh
. kit/shared/processor.sh
# shellcheck source=kit/test/tap.sh
. kit/test/tap.sh

lacking() { # packages that are not here
    local each
    for each in node:nodejs mypy:mypy lintian:lintian pkg-config:pkg-config qemu-aarch64-static:qemu-user-static "$python:python3"; do
        command -v "${each%%:*}" >/dev/null || echo "${each#*:}"
    done
    for each in pandas matplotlib; do
        "$python" -c "import importlib.util, sys; sys.exit(not importlib.util.find_spec('$each').origin)" 2>/dev/null || echo "python3-$each"
    done
}

mapfile -t missing < <(lacking)
install_packages "${missing[@]}" && install_missing
[ -z "$(lacking)" ] || stop "could not install $(lacking | xargs)"
mkdir -p "$out" || stop "could not make $out"

# ---- The shared object and the packages

kit/deb/build libkrossvil-dev python3-krossvil
result 'the packages are built'
[ "$failed" -eq 0 ] || finish
part kit/deb/try-library

folder=$PWD/target/kit/$(this_processor)-linux
soname=$(basename "$(readlink "$folder/libkrossvil.so")")
export KROSSVIL_LIBRARY=$folder/$soname PYTHONPATH=$PWD/kit/python PYTHONDONTWRITEBYTECODE=1

# ---- The module

echo '== the module'
mypy --strict --python-version 3.9 --cache-dir "$out/mypy" kit/python/krossvil
result 'its types hold, for Python 3.9'
part "$python" "$tests/checks.py"

echo "== calls from C: $cases cases, seed $seed"
build_tap "$out/tap" || stop 'the calls from C did not build'
"${run[@]}" "$out/tap" "$cases" "$seed" 3>"$out/calls" >"$out/tap.log" || { tail -n 3 "$out/tap.log"; stop 'the calls from C were not made'; }
"$python" "$tests/replay.py" "$out/calls" "$least"
result 'the shared object and the functions of the module give the same'

gcc -shared -fPIC -O2 -Wall -Wextra -Werror -Iinclude "$tests/changed.c" -L"$folder" -Wl,-rpath,"$folder",--no-as-needed -lkrossvil \
    -o "$out/changed.so" || stop 'the changed library did not build'
KROSSVIL_LIBRARY=$PWD/$out/changed.so "$python" "$tests/replay.py" "$out/calls" 0 |
    grep -qx 'check_journal: C gives 28 at .*, the object gives 27 at .*'
result 'a shared object that says 27 for 28 is noticed'

echo '== faults'
part "$python" "$tests/faults.py" "$out/calls"
rm -f "$out/calls"

# ---- The notebook

echo '== the notebook'
"$python" "$tests/notebook.py" examples/season.ipynb
result 'its cells show what is kept in it'
"$python" "$tests/notebook.py" examples/season.ipynb --without pandas --without matplotlib
result 'and without pandas and matplotlib what each cell says of that'
sed 's/(7, 15)/(7, 16)/' examples/season.ipynb >"$out/changed.ipynb" && ln -sfn "$PWD/examples/season" "$out/season"
! "$python" "$tests/notebook.py" "$out/changed.ipynb" --without pandas --without matplotlib >"$out/notebook.log" &&
    grep -q '^Report(journals=2, dwell=(7, 16)' "$out/notebook.log"
result 'a number of it that is changed is noticed'
finish
