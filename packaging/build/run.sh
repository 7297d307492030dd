# shellcheck shell=sh disable=SC2154
# The choice of the scripts `ndef`, `ndef-make` and `ndef-explain`, in plain sh: each runs the program of its name.
# That is the one that was proved here, where that was done and the sources haven't changed since; else the one of
# dist/, which is compiled first. The scripts set `top`, the folder of the repository, and `name`, that of the program.
# What was proved is one program, which is given the name before the other words.

. "$top/packaging/build/dist.sh"

# What the program reads from standard input, where a script says so: the programs of release 1.0.0 don't say on a terminal that they wait.
reads=

# Runs the program of dist/. The first word says why no proved one runs, or is empty.
run_from_dist() {
    why=$1
    shift
    if commands_are_made; then
        say "${why}running release $(of_source version) of dist/"
    else
        make_commands "$why" quick
    fi
    if [ "$reads" ] && [ -t 0 ] && [ "$(of_source version)" = 1.0.0 ]; then say "reading $reads from standard input"; fi
    exec "$folder/$name" "$@"
}

# Runs the program with the words of the script but the first, where that is --try or --prove.
run() {
    program=$top/crates/ndef_commands/out/ndef_commands
    if [ "$choice" ]; then exec bash "$top/packaging/build/with_rt" "$choice" "$name" ndef_commands "$@"; fi
    [ -x "$program" ] || run_from_dist '' "$@"
    if bash "$top/packaging/build/with_rt" is-proved "$name" ndef_commands; then exec "$program" "$name" "$@"; fi
    run_from_dist 'crates/ has changed since it was proved here; ' "$@"
}

# What rt is to do with the sources instead, by the first word of the script: `try` them, `prove` them, or nothing.
case ${1-} in
    --try) choice=try ;;
    --prove) choice=prove ;;
    *) choice= ;;
esac
