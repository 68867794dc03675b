#!/usr/bin/env bash
# Packs this commit in two clones, and compares the bytes. The second one is in a longer path, with another umask and
# another time zone.
# usage: scripts/dist/twice.sh [COMMAND ..]
# COMMAND builds and packs in a clone, which is its folder; else it is `make dist`, which proves each clone from nothing.
# Ends with 0; with 1 if a file differs, which it names; with 2 if one couldn't be packed.
set -u
top=$(realpath "$(dirname "$0")/../..")
[ $# -gt 0 ] || set -- make dist
folder=$(mktemp -d)
trap 'rm -rf "$folder"' EXIT
one=$folder/one two=$folder/another/longer/path/two

# packed CLONE COMMAND ..
packed() {
    local clone=$1
    shift
    git clone --quiet "$top" "$clone" && (cd "$clone" && "$@" > "$folder/log" 2>&1) && [ -f "$clone/out/dist/SHA256SUMS" ] || {
        tail -n 20 "$folder/log" >&2
        echo "twice.sh: $* packed nothing" >&2
        exit 2
    }
}

packed "$one" "$@"
(umask 077 && TZ=Asia/Tokyo packed "$two" "$@") || exit 2
if cmp -s "$one/out/dist/SHA256SUMS" "$two/out/dist/SHA256SUMS"; then
    cat "$one/out/dist/SHA256SUMS"
    echo "dist-twice: two clones give the same bytes"
    exit 0
fi
diff -rq --no-dereference "$one/out/dist" "$two/out/dist" | sed "s|$folder/||g"
echo "dist-twice: these files differ"
exit 1
