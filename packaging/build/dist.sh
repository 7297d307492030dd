# shellcheck shell=sh disable=SC2154,SC3013
# Functions that compile dist/, the generated sources of a release, with a C compiler. They are plain sh and use
# coreutils only, so that the README's first command needs nothing that a machine with a C compiler may lack. SHA-256 is
# compared before each compilation: a file that was cut off by accident may still compile. `top` is the folder of the repository, and `name` stands before what they say. What goes wrong ends
# with one sentence and status 3.

say() { echo "$name: $*" >&2; }
stop() {
    say "$*"
    exit 3
}

# What the line of dist/SOURCE with this first word says.
of_source() {
    while read -r word rest; do
        [ "$word" != "$1" ] || echo "$rest"
    done <"$top/dist/SOURCE"
}

# The SHA-256 that dist/SOURCE has for a file.
sum_in_source() {
    while read -r word rest; do
        [ "$rest" != "$1" ] || echo "$word"
    done <"$top/dist/SOURCE"
}

# The SHA-256 of standard input.
sum() {
    if command -v sha256sum >/dev/null; then
        sha256sum
    else
        shasum -a 256
    fi
}

# Whether a file is there and no other is newer. The first word is the file; a file of the others that isn't there
# doesn't count.
is_newer_than() {
    made=$1
    shift
    [ -e "$made" ] || return 1
    for file; do [ ! "$file" -nt "$made" ] || return 1; done
}

# Stops where dist/ hasn't these files as dist/SOURCE names them.
check_files() {
    [ -e "$top/dist/SOURCE" ] \
        || stop "dist/SOURCE is missing: take the folder dist/ from the release, or prove the sources with 'make prove'"
    for file; do
        wanted=$(sum_in_source "$file")
        found=$({ sum <"$top/dist/$file" | cut -d ' ' -f 1; } 2>/dev/null)
        [ -n "$wanted" ] && [ "$found" = "$wanted" ] \
            || stop "dist/$file isn't the file whose SHA-256 is in dist/SOURCE:" \
                "take dist/ from the release again, as by 'git checkout dist'"
    done
}

# Sets `cc` to the C compiler: what CC names, else the first of the usual names that is on the path.
find_compiler() {
    for cc in ${CC:-cc gcc clang}; do
        if command -v "$cc" >/dev/null; then
            [ -z "${CC:-}" ] || cc=$CC
            return
        fi
        [ -z "${CC:-}" ] || break
    done
    stop "there is no C compiler ${CC:-cc} on the path: install one, as by 'apt install gcc', or name it with CC"
}

# Sets `commands` to the source of the commands: the assembly for the machine of the compiler, or the C file if there is none; and `faster` to the
# assembly for x86-64-v2, which release 1.0.0 has, or to nothing.
find_commands() {
    machine=$($cc -dumpmachine 2>/dev/null) || machine=$(uname -m)-$(uname -s)
    case $machine in
        x86_64*-linux-gnux32) commands= ;;
        x86_64*-[lL]inux*) commands='commands-x86_64-linux.s' ;;
        aarch64*-[lL]inux*) commands='commands-aarch64-linux.s' ;;
        *) commands= ;;
    esac
    faster='commands-x86_64-v2-linux.s'
    [ "$commands" = 'commands-x86_64-linux.s' ] && [ -e "$top/dist/$faster" ] || faster=
    if [ -e "$top/dist/commands.c" ]; then
        [ -f "$top/dist/$commands" ] || commands=commands.c
    elif [ -z "$commands" ]; then
        stop "dist/ has commands for x86-64 and AArch64 Linux only, and this compiler is for $machine:" \
            "make the library for C with 'make library'"
    fi
}

# Runs the compiler, and puts what it makes where it belongs once it is whole: others may be making the same. The
# first word is the file.
compile() {
    made=$1
    shift
    mkdir -p "${made%/*}" || exit 3
    # shellcheck disable=SC2086
    if ! $cc "$@" -o "$made.$$"; then
        rm -f "$made.$$"
        stop "$cc doesn't compile dist/, as it says above: name another C compiler with CC"
    fi
    mv -f "$made.$$" "$made"
}

# Whether the commands are compiled from dist/ as it is. Sets `folder` to the one that has them.
commands_are_made() {
    for folder in "$top/out/dist" "$top/out/dist/quick"; do
        [ ! -e "$top/dist/SOURCE" ] || [ ! -e "$folder/ndef-make" ] || [ ! -e "$folder/ndef-explain" ] \
            || ! is_newer_than "$folder/ndef" "$top/dist/SOURCE" "$top"/dist/commands* "$top/dist/runtime.c" || return 0
    done
    return 1
}

# Compiles the commands: out/dist/ndef, which is the command of the name by which it is called, and two links to it. If there are two sources, it
# runs the code for its processor. The first word is what comes before the line that says so; with a second one the C file is compiled in the least
# time, in out/dist/quick. Sets `folder` to the one that has them.
make_commands() {
    folder=$top/out/dist said="${1-}compiling release"
    find_compiler
    check_files
    find_commands
    # shellcheck disable=SC2086
    check_files "$commands" $faster runtime.c
    said="$said $(of_source version) of dist/, once"
    if [ -n "${2-}" ] && [ "$commands" = commands.c ]; then
        folder=$folder/quick
        compile_quickly
    else
        say "$said"
        set -- "$top/dist/$commands" "$top/dist/runtime.c"
        [ -z "$faster" ] || set -- "$@" "$top/dist/$faster" "$top/packaging/c/choose_commands.c" -Dndef_commands=chosen_commands
        # shellcheck disable=SC2086
        compile "$folder/ndef" ${CFLAGS:--O2} "$@" ${LDFLAGS:-}
    fi
    for link in ndef-make ndef-explain; do
        ln -s ndef "$folder/$link" 2>/dev/null || [ -e "$folder/$link" ] || exit 3
    done
}

# Compiles the C file by tcc, if that is there and CC names no other; else without optimising, in its four parts at once, by clang if that is there,
# which takes half the time of gcc.
compile_quickly() {
    mkdir -p "$folder" || exit 3
    made=$folder/ndef.$$
    if [ -z "${CC:-}" ] && tcc "$top/dist/commands.c" "$top/dist/runtime.c" -o "$made" 2>/dev/null; then
        say "$said"
        mv -f "$made" "$folder/ndef"
        return
    fi
    [ -n "${CC:-}" ] || ! command -v clang >/dev/null || cc=clang
    say "$said, which takes some seconds ('make' makes faster ones)"
    set --
    for part in 1 2 3 4; do
        # shellcheck disable=SC2086
        $cc ${CFLAGS:--O0} -DND_PART=$part -c "$top/dist/commands.c" -o "$made.$part.o" &
        set -- "$@" "$made.$part.o"
    done
    wait
    # (a part that isn't compiled the linker misses)
    # shellcheck disable=SC2086
    (compile "$folder/ndef" ${CFLAGS:--O0} "$@" "$top/dist/runtime.c" ${LDFLAGS:-})
    status=$?
    rm -f "$@"
    [ $status = 0 ] || exit $status
}

# Compiles the library for C to an archive, for programs and for shared libraries.
make_library() {
    archive=$1 object=${1%.a}.$$.o
    find_compiler
    check_files ndef.c
    for file in "$top"/dist/ndef*.h "$top"/dist/interface.json; do [ ! -e "$file" ] || check_files "${file##*/}"; done
    # shellcheck disable=SC2086
    compile "$object" -std=c99 ${CFLAGS:--O2} -fPIC -c "$top/dist/ndef.c"
    ${AR:-ar} rc "$archive.$$" "$object" && rm -f "$object" && mv -f "$archive.$$" "$archive" || exit 3
}
