# shellcheck shell=bash disable=SC2034
# Which Python and which mypy the checks of the packages go by. Read by .ci/clib and .ci/python.

# chosen_python: the first Python of 3.9 or later that has numpy and scipy, or else the first of 3.9 or later; nothing where there is none
chosen_python() {
    local each first=
    for each in python3 /usr/bin/python3; do
        "$each" -c 'import sys; sys.exit(sys.version_info < (3, 9))' 2> /dev/null || continue
        first=${first:-$each}
        "$each" -c 'import numpy, scipy' 2> /dev/null && first=$each && break
    done
    printf '%s' "$first"
}

# find_mypy PYTHON: sets `mypy` to the words of the command, that of this Python or the one by itself; to none where there is none
find_mypy() {
    mypy=()
    if "$1" -m mypy --version > /dev/null 2>&1; then
        mypy=("$1" -m mypy)
    elif command -v mypy > /dev/null; then
        mypy=(mypy)
    fi
}
