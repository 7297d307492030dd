# shellcheck shell=bash
# What the shell scripts under test/ share. A script sources this file first and ends with `finish`. It sets
#
#   top    the folder of the repository
#   here   the folder of the script
#   out    a folder for the script's files, which is removed when it ends
#
# The names that `has` knows stand in test/needs.txt.
set -u
top=$(cd "$(dirname "${BASH_SOURCE[0]}")/.." && pwd)
. "$top/test/counts.sh"
# shellcheck disable=SC2034
here=$(cd "$(dirname "$0")" && pwd)
out=$(mktemp -d)
# (the path stands in the trap, so that a script that sets `out` anew loses nothing)
# shellcheck disable=SC2064
trap "rm -rf '$out'" EXIT
passed=0 failed=0
# Where this is set, tests that pass print no line.
quiet=

# count NAME STATUS [LINE..]: counts a test, which has passed where its status is 0. Where it failed, the lines are printed.
count() {
    local name=$1 status=$2
    shift 2
    if [ "$status" = 0 ]; then
        passed=$((passed + 1)); [ "$quiet" ] || echo "ok: $name"
    else
        failed=$((failed + 1)); echo "FAILED: $name"; [ $# = 0 ] || printf '%s\n' "$@"
    fi
}

# try NAME [-v] COMMAND..: runs a command as a test. What it printed is shown where it fails, or where -v asks for it; else what it left out.
try() {
    local name=$1 shown='^left out: ' status
    shift
    if [ "$1" = -v ]; then shown=''; shift; fi
    "$@" >"$out/said" 2>&1
    status=$?
    count "$name" "$status"
    if [ "$status" != 0 ]; then tail -n 40 "$out/said"; else grep "$shown" "$out/said"; fi
}

# add COMMAND..: runs a program that tests and prints 'N passed, M failed', shows what it prints, and adds its counts.
add() {
    local good bad why
    "$@" 2>&1 | tee "$out/added"
    counts "$out/added" "${PIPESTATUS[0]}"
    [ -z "$why" ] || echo "FAILED: $* $why"
    passed=$((passed + good)) failed=$((failed + bad))
}

# many LONG USUAL SHORT: the number for `make check-all`, for the gate or for `make check`. NDEF_LONG and NDEF_QUICK in the environment say which.
many() { if [ "${NDEF_LONG-}" ]; then echo "$1"; elif [ "${NDEF_QUICK-}" ]; then echo "$3"; else echo "$2"; fi; }

# has NAME..: whether this machine has these. Otherwise a line says what is left out, and which Debian package brings it.
has() {
    local name package check
    for name; do
        read -r _ package check < <(awk -v name="$name" '!/^#/ && $1 == name' "$top/test/needs.txt")
        if ! bash -c "${check:-command -v $name}" >/dev/null 2>&1; then
            left_out "no $name" "$package"
            return 1
        fi
    done
}

# left_out WHY [PACKAGE]: says that tests are left out, and which package has what they need; '-' is none.
left_out() { if [ "${2:--}" = - ]; then echo "left out: $1"; else echo "left out: $1 (Debian package $2)"; fi; }

# Prints the counts and ends the script. Its status is 1 where a test failed, and 77 where none was run.
finish() {
    echo "$passed passed, $failed failed"
    [ "$failed" = 0 ] || exit 1
    [ "$passed" != 0 ] || exit 77
    exit 0
}
