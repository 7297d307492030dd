# shellcheck shell=bash disable=SC2154
# How .ci/run and test/run run their parts and sum them up. They set `top`, the folder of the repository, call `begin`, and `plan` all that they
# run. test/parts.txt has the parts that are tests. $work/results gets a line 'NAME|STATUS|SECONDS|PASSED|FAILED|WHY|LOG' of each part that has ended,
# where LOG is a file with what the part printed. A planned part without exactly one line has failed, whatever became of it.
. "$top/test/counts.sh"

# Makes `work`, which is removed at the end. What runs then is ended, as after an interrupt.
begin() {
    work=$(mktemp -d) && touch "$work/results" "$work/left_out" || exit
    trap stop EXIT
    trap 'exit 130' INT TERM
}

# (the lanes are ended first, so that none begins another part)
stop() {
    cat "$work"/*.lanes "$work"/*.pid 2>/dev/null | xargs -r kill 2>/dev/null
    rm -rf "$work"
}

# The seconds that a part has to end once it is asked to.
grace=20

# The number of processors that there are to use.
cores() { nproc; }

# plan NAME..: says that these parts have to end. Where that can't be kept, all is ended.
plan() { printf '%s\n' "$@" >>"$work/plan" || { echo 'FAILED: the plan of the parts is not written' >&2; kill $$; }; }

# parts_of COLUMN WORD..: the parts for which this column of test/parts.txt has one of the words: each as the words of `part`, or with -n its name.
parts_of() {
    local name=
    if [ "$1" = -n ]; then name=yes; shift; fi
    awk -v column="$1" -v words=" ${*:2} " -v name=$name '!/^#/ && NF && index(words, " " $column " ") {
        if (name) print $4; else { $1 = $2 = ""; print "-t" $0 } }' "$top/test/parts.txt"
}

# part [-t MINUTES] NAME [COMMAND..]: runs a part, by default the script NAME, shows what it printed once it has ended, and keeps its counts and
# its time. After its minutes, by default 40, it is ended.
part() {
    local minutes=40 name log status begun=$SECONDS good bad why
    if [ "$1" = -t ]; then minutes=$2; shift 2; fi
    name=$1
    [ $# = 1 ] || shift
    plan "$name"
    log=$(mktemp -p "$work")
    # What prints does so alone: `cat` copies to a file by the kernel, which takes no heed of what another process writes there meanwhile.
    flock "$work/lock" echo "-- $name begins"
    timeout -v -k "$grace" "${minutes}m" "$@" >"$log" 2>&1 </dev/null &
    echo $! >"$log.pid"
    wait $!
    status=$?
    rm -f "$log.pid"
    counts "$log" $status
    if grep -qE '^timeout: .*(TERM|KILL)' "$log"; then why="was ended after its limit of $minutes minutes"; fi
    (
        flock 9
        echo "== $name ($((SECONDS - begun)) s)"
        cat "$log"
        sed -n "s|^left out: |left out: $name: |p" "$log" >>"$work/left_out" \
            && echo "$name|$status|$((SECONDS - begun))|$good|$bad|$why|$log" >>"$work/results"
    ) 9>>"$work/lock"
}

# in_lanes COUNT PART..: runs parts, the first ones first, at most COUNT side by side. A PART is the words of `part`, in one word.
in_lanes() {
    local count=$1 it
    shift
    (
        echo $BASHPID >"$work/$BASHPID.lanes"
        for it; do
            ((count-- > 0)) || wait -n
            # shellcheck disable=SC2086
            part $it &
        done
        wait
    ) &
    wait $!
}

# Prints of each part that failed why, each line that says FAILED or that something isn't proved or refused, and its last line, indented.
failures() {
    local name status bad why log
    while IFS='|' read -r name status _ _ bad why log; do
        [ "$bad" != 0 ] || continue
        echo
        echo "$name ${why:-failed with status $status}:"
        { grep -E 'FAILED|NOT (PROVED|REFUSED|LISTED|TRIED)|BAD EDIT' "$log" || tail -n 40 "$log"; tail -n 1 "$log"; } | awk '!seen[$0]++' | sed 's/^/    /'
    done <"$work/results"
}

# Prints of each planned part that hasn't exactly one result how many it has.
lost() {
    awk -F '|' 'FILENAME == ARGV[1] { if (NF == 7) results[$1]++; next }
        !seen[$1]++ && results[$1] != 1 { print "FAILED: " $1 " was planned, and has " results[$1] + 0 " results" }' "$work/results" "$work/plan"
}

# Prints what was left out and has no row in a file of what may be, such as test/left_out.txt.
not_kept() {
    local line row
    while IFS= read -r line; do
        while IFS= read -r row; do
            # shellcheck disable=SC2254
            case $line in "left out: "$row) continue 2 ;; esac
        done <"$1"
        echo "FAILED: test/left_out.txt does not allow: $line"
    done < <(sort -u "$work/left_out")
}

# table terminal|markdown: the parts with their minutes and counts, the longest first.
table() {
    sort -t '|' -k 3,3nr "$work/results" | awk -F '|' -v kind="$1" '
        BEGIN {
            row = kind == "markdown" ? "| %s | %.1f | %s | %s |\n" : "%-40s %8.1f %8s %8s\n"
            if (kind == "markdown") print "| part | minutes | passed | failed |\n|---|---|---|---|"
            else printf "%-40s %8s %8s %8s\n", "part", "minutes", "passed", "failed"
        }
        { printf row, $1, $3 / 60, $4 + $5 ? $4 : "left out", $4 + $5 ? $5 : "" }'
}

# What the run took: 'minutes: 12, cores: 4'.
took() { echo "minutes: $((SECONDS / 60)), cores: $(cores)"; }

# summary [FILE]: prints the parts with their minutes and counts, what failed, what was left out with the line that installs it, and as the last line the
# sums. Its status is 1 where a part failed or a planned one has no result, and, with a FILE of what may be left out, where something else was.
summary() {
    local packages wrong
    echo
    table terminal
    echo "$(took), kit: $(rt version 2>/dev/null || echo none)"
    failures
    if [ -s "$work/left_out" ]; then
        echo
        sort -u "$work/left_out"
        packages=$(packages_of "$work/left_out")
        [ -z "$packages" ] || echo "to run these too: apt-get install $packages"
        echo
    fi
    wrong=$(lost; [ -z "${1-}" ] || not_kept "$1")
    [ -z "$wrong" ] || echo "$wrong"
    awk -F '|' -v failed="$(grep -c . <<<"$wrong")" 'NF == 7 { passed += $4; failed += $5 }
        END { print passed + 0 " passed, " failed + 0 " failed"; exit failed > 0 || passed == 0 }' "$work/results"
}

# The packages that the lines 'left out: WHAT (Debian package NAME)' of a file name.
packages_of() { sed -nE 's/^left out: .*\(Debian package (.*)\)$/\1/p' "$1" | sort -u | paste -sd ' '; }

# Prints the line that installs what the tests use where it is there.
needs() { echo "apt-get install $(awk '!/^#/ && NF && $2 != "-" { print $2 }' "$top/test/needs.txt" | sort -u | paste -sd ' ')"; }

# Installs what the tests use and this machine lacks, as root where apt-get has a mirror, which gets so many minutes. What is lacking then, the parts leave
# out. (Nothing ends dpkg while it unpacks: that would have to be mended by hand.)
provide() {
    local packages package limit=$((SECONDS + 60 * $1))
    # shellcheck disable=SC2016
    packages=$(packages_of <(bash -c '. "$0/test/harness.sh"; for it in $(grep -v "^#" "$top/test/needs.txt" | cut -d " " -f 1); do has "$it"; done' "$top"))
    [ "$packages" ] || return 0
    echo "this machine lacks: $packages"
    [ "$(id -u)" = 0 ] && command -v apt-get >/dev/null || return 0
    fetch update -q
    # shellcheck disable=SC2086
    get $packages || for package in $packages; do get "$package"; done
}
fetch() { ((SECONDS < limit)) && timeout -k 20 $((limit - SECONDS)) apt-get "$@" </dev/null; }
get() {
    local options=(-qy -o DPkg::Lock::Timeout=600)
    fetch install --download-only "${options[@]}" "$@" >/dev/null \
        && DEBIAN_FRONTEND=noninteractive apt-get install --no-download "${options[@]}" "$@" </dev/null >/dev/null
}
