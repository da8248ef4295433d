#!/bin/sh
# Checks the Python and shell scripts and the C code with the linters that are there. A missing one is passed over with a message, but
# where CI is set it fails. Tried with flake8 5.0 and ruff 0.1, black 23.1, shellcheck 0.9 and clang-format 14.
cd "$(dirname "$0")" || exit 1
status=0
lacks() {
    echo "lint: $1 is missing: apt-get install $2"
    [ -z "${CI:-}" ] || status=1
}
python="confluo_report tests confluo-report deb ../bindings/python ../bindings/tests"
if command -v ruff > /dev/null; then
    # shellcheck disable=SC2086
    ruff check --line-length 140 $python ./*.py || status=1
    ruff check --ignore E402,E501 ../bench ../examples || status=1
elif command -v flake8 > /dev/null; then
    # shellcheck disable=SC2086
    flake8 --max-line-length 140 --extend-ignore E203,W503 $python ./*.py || status=1
    flake8 --extend-ignore E203,W503,E402,E501 ../bench ../examples || status=1
else
    lacks "ruff or flake8" flake8
fi
if command -v black > /dev/null; then
    # Versions of black differ in small things, so this is no failure.
    # shellcheck disable=SC2086
    black --quiet --check --line-length 110 $python ./*.py || echo "lint: black -l 110 would change files"
else
    lacks black black
fi
if command -v shellcheck > /dev/null; then
    shellcheck ./*.sh deb/*.sh systemd/*.sh deb/*.p*inst deb/*.p*rm ../bench/*.sh ../bindings/tests/*.sh \
        ../examples/*/*.sh ../.ci/run || status=1
else
    lacks shellcheck shellcheck
fi
if command -v clang-format > /dev/null; then
    # (confluo.h is laid out by hand, as a page to read)
    clang-format --dry-run --Werror ../bench/*.c ../bindings/*.c ../bindings/daemon/*.c ../bindings/tests/*.[ch] || status=1
else
    lacks clang-format clang-format
fi
exit $status
