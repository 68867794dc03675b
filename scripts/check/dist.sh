#!/usr/bin/env bash
# Checks what `make dist` packed: its files, and in a bare Debian without a kit what a user of it meets.
# usage: scripts/check/dist.sh [--files] [--cache FOLDER] [FOLDER]     (out/dist)
# --files: the files alone (dist_files.py), in some seconds and without a root.
# --cache: where the bare Debian is kept, else out/bare_debian. It is made once, by debootstrap from the mirror that apt
# has here, with all that the package needs. After that no network is needed.
# Ends with 0; with 1 if something is wrong, which it shows; with 2 if something is missing or nothing was packed.
set -u
cd "$(dirname "$0")" || exit 2
top=$(realpath ../..)
export PATH=$PATH:/usr/sbin:/sbin
out=$top/out/dist cache=$top/out/bare_debian files_only=
release=bookworm
# What the checks need there, besides what the package depends on
tools=(diffutils gcc graphviz jq libc6-dev man-db mawk pkgconf)

missing() {
    echo "dist.sh: $*" >&2
    exit 2
}

while [ $# -gt 0 ]; do
    case $1 in
        --files) files_only=yes ;;
        --cache) shift && cache=$(realpath -m "${1:?}") ;;
        -*) missing "usage: scripts/check/dist.sh [--files] [--cache FOLDER] [FOLDER]" ;;
        *) out=$(realpath "$1") ;;
    esac
    shift
done
python3 dist_files.py "$out" || exit
[ -z "$files_only" ] || exit 0

absent=()
for tool in chroot:coreutils debootstrap:debootstrap dpkg-deb:dpkg setpriv:util-linux unshare:util-linux; do
    command -v "${tool%:*}" > /dev/null || absent+=("${tool#*:}")
done
[ "${#absent[@]}" = 0 ] || missing "missing, on Debian: apt-get install ${absent[*]}"
[ "$(id -u)" = 0 ] || missing "run it as root: it makes a root of its own by chroot"
apart=(unshare --mount --net --pid --fork --kill-child)
"${apart[@]}" true || missing "this machine doesn't let it run without the network"
package=$(echo "$out"/*.deb)
archive=$(echo "$out"/*.tar.gz)
depends=$(dpkg-deb -f "$package" Depends)
# A change of what is needed makes another one.
kept=$cache/$release-$(echo "$depends ${tools[*]}" | sha256sum | cut -c 1-12).tar
folder=$(mktemp -d)
# What is mounted below is so in a namespace of its own, and not here.
trap 'rm -rf --one-file-system "$folder"' EXIT
root=$folder/root

# A bare Debian, with the tools and, not yet installed, all that the package depends on
make_root() {
    local mirror
    mirror=$(apt-get indextargets --format '$(SITE) $(CODENAME) $(COMPONENT)' 'Identifier: Packages' |
        awk -v release="$release" '$2 == release && $3 == "main" { print $1; exit }')
    [ -n "$mirror" ] || mirror=$(apt-get indextargets --format '$(SITE)' 'Identifier: Packages' 'Origin: Debian' | head -n 1)
    [ -n "$mirror" ] || missing "apt knows no mirror of Debian"
    unshare --mount debootstrap --variant=minbase "$release" "$root" "$mirror" > "$folder/log" 2>&1 &&
        in_root apt-get -q update >> "$folder/log" 2>&1 &&
        in_root apt-get -q -y install --no-install-recommends "${tools[@]}" >> "$folder/log" 2>&1 &&
        in_root apt-get -q -y clean &&
        in_root apt-get -q -y satisfy --download-only --no-install-recommends "$depends" >> "$folder/log" 2>&1 || {
        tail -n 20 "$folder/log" >&2
        missing "the bare Debian can't be made from $mirror"
    }
    rm -rf "$root/var/log"/* "$root/tmp"/*
    mkdir -p "$cache"
    tar -C "$root" -cf "$kept.new" . && mv "$kept.new" "$kept"
}

in_root() { env -i PATH=/usr/sbin:/usr/bin:/sbin:/bin DEBIAN_FRONTEND=noninteractive chroot "$root" "$@"; }

if [ -f "$kept" ]; then
    mkdir "$root"
    tar -C "$root" -xf "$kept"
else
    echo "dist.sh: makes $kept, once"
    make_root
fi

# The package, the archive and the runner of the examples; pages and examples are those that get installed.
mkdir -p "$root/tmp/checks/scripts/check"
cp "$package" "$archive" dist_root.sh "$root/tmp/"
cp runs.py example_pages.py example_shell.py examples.py "$root/tmp/checks/scripts/check/"
for name in docs examples; do ln -s "/usr/share/doc/baliseplan/$name" "$root/tmp/checks/$name"; done
mkdir "$root/tmp/checks/man"
tar -xzf "$archive" -C "$root/tmp/checks/man" --strip-components=3 --wildcards '*/man/man1/baliseplan.1' '*/man/man1/balisefacts.1'
export root
"${apart[@]}" bash -c 'mount -t proc proc "$root/proc" &&
    mount -t tmpfs -o mode=1777 shared "$root/dev/shm" && exec env -i \
    PATH=/usr/sbin:/usr/bin:/sbin:/bin DEBIAN_FRONTEND=noninteractive chroot "$root" bash /tmp/dist_root.sh "$@"' - \
    "/tmp/$(basename "$package")" "/tmp/$(basename "$archive")" /tmp/checks
status=$?
[ "$status" = 0 ] || exit 1
echo "dist: right, in a bare Debian $release without a kit"
