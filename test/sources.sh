# shellcheck shell=bash disable=SC2034,SC2154
# Which generated sources the tests measure. A script sources test/harness.sh before this file.

# Whether the crates have changed since the release that dist/ holds.
is_outdated() { [ "$(sed -n 's/^crates //p' "$top/dist/SOURCE")" != "$("$top/packaging/tree_hash")" ]; }

# Whether out/ is made of these crates, or of a release that has the same.
is_current() { [ "$(cat "$top/out/from")" = crates ] || ! is_outdated; }

# library_in_c: sets `library` to the folder with ndef.c and ndef.h that is made of the same as out/: dist/, or what rt makes of the crates. Its ndef.c names
# the hash of the sources, so the first part of the gate that asks for it makes it for all. It writes nothing to standard output.
library_in_c() {
    library=$top/dist
    if [ "${NDEF_FROM:-$("$top/packaging/build/crates_or_dist")}" = dist ] || ! is_outdated; then return; fi
    library=$top/out/amalgamation
    (flock 9 && { grep -qs "$("$top/packaging/tree_hash")" "$library"/ndef_small.c || "$top/ports/amalgamation" "$library" >&2; }) 9>>"$top/out/amalgamation.lock"
}

# copy_without_crates FOLDER DIST: copies the repository there, without crates/ and with a folder of generated sources as its dist/. If these are made of the
# crates as they are here, they are in the copy too.
copy_without_crates() {
    mkdir -p "$1/crates" "$1/dist" && if git -C "$top" rev-parse --git-dir >/dev/null 2>&1; then
        (cd "$top" && git ls-files -z | grep -zv '^crates/\|^dist/' | xargs -0 cp -P --parents -t "$1")
    else
        tar -C "$top" --exclude=./out --exclude=./crates --exclude=./dist -c . | tar -C "$1" -x
    fi && cp "$2"/* "$1/dist" && sed -i "s/^crates $("$top/packaging/tree_hash")$/crates $("$1/packaging/tree_hash")/" "$1/dist/SOURCE"
}

# over_dist NAME COMMAND..: a test that runs what stands here over dist/. Where it fails and the crates have changed since that release, make check leaves
# it out: it may ask for what the release hasn't. The gate has what is made of the crates instead. The status is 1 where it didn't pass.
over_dist() {
    local name=$1
    shift
    if "$@" >"$out/said" 2>&1; then count "$name" 0; return; fi
    if [ "${NDEF_QUICK-}${NDEF_LONG-}" ] && is_outdated; then left_out "$name: the crates have changed since the release in dist/"; return 1; fi
    count "$name" 1 "$(tail -n 40 "$out/said")"
    return 1
}

# try_made NAME COMMAND..: a test that uses what make made in out/, or `library`: `try`, or where these are of dist/ `over_dist`.
try_made() { if [ "${NDEF_FROM:-$(cat "$top/out/from")}" = crates ]; then try "$@"; else over_dist "$@"; fi; }

# table_of_calls FOLDER [ROUNDS]: makes the table of calls of test/table over the library of the Python module, which is made.
table_of_calls() {
    "$top/conformance/make_json" || return
    local description=$top/packaging/share/interface.json
    [ "${NDEF_FROM:-$(cat "$top/out/from")}" = crates ] || description=$top/dist/interface.json
    python3 -B "$top/test/table/make_table.py" "$top/out/python/simbegyor_ndef/libndef.so.1" "$description" "$@"
}

# rust_driver FOLDER: a package with the driver of that table in Rust.
rust_driver() {
    mkdir -p "$1/src" && cp "$top/test/table/driver.rs" "$1/src/main.rs" || return
    printf '[package]\nname = "driver"\nversion = "0.0.0"\nedition = "2021"\n[dependencies]\nsimbegyor-ndef = { path = "%s/bindings/rust" }\n[workspace]\n' \
        "$top" >"$1/Cargo.toml"
}

# The calls to the system in whose place test/fuzz/commands.c puts its own, as words for the compiler that links it.
wrapped=()
for call in read write isatty open close lseek statx; do wrapped+=("-Wl,--wrap=$call"); done
