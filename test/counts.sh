# shellcheck shell=bash disable=SC2034
# What a program of tests says of itself. test/parts.sh and test/harness.sh source this file.

# counts LOG STATUS: sets `good` and `bad` to the numbers of the last line 'N passed, M failed' that the program printed to LOG, and `why` to what is wrong
# where the line lacks or the status says another thing: bad is then 1 at least. A program that tried nothing ends with 77.
counts() {
    local line
    why='' good=0 bad=0
    line=$(grep -xE '[0-9]+ passed, [0-9]+ failed' "$1" | tail -n 1)
    [ -z "$line" ] || read -r good _ bad _ <<<"$line"
    if [ "$2" -gt 128 ]; then why="was killed by the signal $(kill -l "$2")"
    elif [ -z "$line" ]; then why="ended with status $2 and without counts"
    elif [ "$bad" = 0 ] && [ "$good $2" != '0 77' ] && { [ "$2" != 0 ] || [ "$good" = 0 ]; }; then why="ended with status $2 after '$line'"
    fi
    if [ "$why" ] && [ "$bad" = 0 ]; then bad=1; fi
}
