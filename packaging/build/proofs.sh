# shellcheck shell=bash disable=SC2154
# Functions of packaging/build/with_rt, which proves, builds and runs a program of the repository. It sets `top`, the folder
# of the repository, `name`, what it calls itself, and `program` and `crates`, the program's file and the crates of
# which it is made.

say() { echo "$name: $*" >&2; }

# The crates that some crates need, lowest first, and those crates.
crates_of() {
    awk -v wanted="$*" '
        !/^#/ && NF { split($0, half, ":"); split(half[1], word, " "); crate[++count] = word[1]; needs[count] = half[2] }
        END {
            k = split(wanted, each, " ")
            for (j = 1; j <= k; j++) is_wanted[each[j]] = 1
            for (i = count; i >= 1; i--)
                if (crate[i] in is_wanted) {
                    k = split(needs[i], below, " ")
                    for (j = 1; j <= k; j++) is_wanted[below[j]] = 1
                }
            for (i = 1; i <= count; i++) if (crate[i] in is_wanted) print crate[i]
        }' "$top/crates.txt"
}

# Whether a file is there and no source of the crates is newer. The first word is the file.
is_newer() {
    local file=$1 crate folders=()
    shift
    [ -e "$file" ] || return 1
    for crate; do folders+=("$top/crates/$crate"/{src,specs,proofs}); done
    [ -z "$(find "${folders[@]}" -type f -newer "$file" -print -quit 2>/dev/null)" ]
}

# The crates whose proof is missing, or older than their sources or those of a crate below. What is built of a crate
# is a library, a program or a library for C.
crates_left() {
    local crate below file
    for crate in "${crates[@]}"; do
        mapfile -t below < <(crates_of "$crate")
        for file in rlib "$crate" "lib$crate.a"; do
            is_newer "$top/crates/$crate/out/$file" "${below[@]}" && continue 2
        done
        echo "$crate"
    done
}

# The processor seconds that the proofs of crates take from nothing, by the table packaging/processor_seconds. A crate
# that it hasn't counts a minute.
seconds_of() {
    awk -v wanted="$*" '
        !/^#/ { seconds[$1] = $2 }
        END {
            k = split(wanted, each, " ")
            for (j = 1; j <= k; j++) sum += each[j] in seconds ? seconds[each[j]] : 60
            print sum + 0
        }' "$top/packaging/processor_seconds"
}

# The same in minutes, with those that they take on 4 cores, where crates wait for one another.
minutes_of() {
    local minutes=$((($(seconds_of "$@") + 59) / 60))
    echo "$minutes processor minutes ($(((minutes * 12 + 25) / 26)) minutes on 4 cores)"
}

# Says what the proof costs of the crates that are left, to build what is named.
say_cost() {
    local left
    mapfile -t left < <(crates_left)
    say "proving and building $1, once (crates to prove: ${#left[@]} of ${#crates[@]})"
    if [ "$(seconds_of "${left[@]}")" -gt 180 ]; then
        say "this takes some $(minutes_of "${left[@]}"), up to 4 GB of memory, and 5 GB of disk"
    else
        say "this takes a minute or two"
    fi
}

# Turns the progress that `rt` prints to lines as 'crate 3 of 9: ndef_lang, 120 of 183 functions'.
progress() {
    awk -v name="$name" -v list="${crates[*]}" '
        BEGIN { count = split(list, crate, " "); for (i = 1; i <= count; i++) place[crate[i]] = i }
        /^rt: chose .* for / { now = $NF }
        /^so far: [0-9]+ of [0-9]+ functions/ {
            printf "%s: crate %d of %d: %s, %d of %d functions\n", name, place[now], count, now, $3, $5
            fflush()
        }' >&2
}

needs_rt() {
    command -v rt >/dev/null && return
    say "$1 needs the command rt of the Rattle kit, which is not on the path"
    say "without it ./$name runs the release in dist/, which needs a C compiler alone"
    exit 3
}

interrupted() {
    rm -f "$log"
    say 'interrupted; the next run goes on from what is proved'
    exit 3
}

# Proves and builds the program. `rt run` runs it too, with words with which it ends well without standard input.
build() {
    local log begun=$SECONDS
    needs_rt 'the first run'
    say_cost 'the program'
    log=$(mktemp)
    trap interrupted INT TERM
    if ! (cd "$top/crates/${crates[-1]}" && rt run --cpu x86-64 -- ndef encode </dev/null 2>&1) | tee "$log" | progress; then
        cat "$log" >&2
        rm -f "$log"
        exit 3
    fi
    trap - INT TERM
    rm -f "$log"
    touch "$program"
    say "proved and built in $(((SECONDS - begun) / 60)) minutes $(((SECONDS - begun) % 60)) seconds"
}

# Runs the program as it is under its name, and proves nothing. `rt` runs it in a folder of its own. So each word that names a file here, by a name that can
# stand there, is given to it as that file.
run_unproved() {
    local log status word files=()
    needs_rt --try
    say "running unproved; ./$name --prove proves it first"
    for word; do
        case $word in
            /* | .. | ../* | */.. | */../* | *=* | program* | stdin* | stdout* | stderr*) ;;
            *) [ ! -f "$word" ] || files+=(--data "$word=$PWD/$word") ;;
        esac
    done
    log=$(mktemp)
    (cd "$top/crates/${crates[-1]}" && rt try "${files[@]}" -- "$name" "$@") 2>"$log"
    status=$?
    # `rt` says by these lines that the program ended by itself.
    grep -vE '^(checked: ended|run=ended)' "$log" >&2
    grep -q '^run=ended' "$log" || status=3
    rm -f "$log"
    exit "$status"
}
