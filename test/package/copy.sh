# shellcheck shell=bash disable=SC2154
# Copies the files of the repository to a folder, without what was built. A release has no git.
make_copy() {
    mkdir -p "$1"
    (cd "$top" && { git ls-files -z 2>/dev/null | grep -z . \
        || find . \( -name out -o -name .git \) -prune -o \( -type f -o -type l \) -print0; } | tar --null -T - -cf -) \
        | tar -C "$1" -xf -
}
