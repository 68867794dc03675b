#!/usr/bin/env bash
# Installs what was built, with no kit on the path, and looks at what a user of it meets: files, exported names, the
# lines of docs/LIBRARY.md and the example of man/baliseplan.3, cffi, the wheel, and callers that were copied elsewhere.
# usage: scripts/check/library_install.sh [PROGRAM]
# Ends with 0; with 1 if something is wrong, which it shows; with 2 if something is missing or wasn't built.
set -eu

missing() {
    echo "library_install.sh: $*" >&2
    exit 2
}

[ $# -le 1 ] || missing "usage: scripts/check/library_install.sh [PROGRAM]"
program=$(realpath "${1:-$(dirname "$0")/../../crates/baliseplan/out/baliseplan}")
cd "$(dirname "$0")/../.."
for file in "$program" out/libbaliseplan.a out/libbaliseplan.so.*; do
    [ -f "$file" ] || missing "$file isn't built: run make program shared"
done
for tool in cargo cc make nm pkg-config readelf; do
    command -v "$tool" > /dev/null ||
        missing "$tool is missing (on Debian: apt-get install binutils cargo gcc make pkgconf)"
done
# has PYTHON: whether it finds what the wheel and cffi need. The first one on the path may not be Debian's.
has() {
    "$1" -c 'from importlib.util import find_spec
assert all(map(find_spec, ("cffi", "pip", "setuptools", "wheel")))' 2> /dev/null
}
python=python3
has "$python" || python=/usr/bin/python3
has "$python" || missing "Python finds no cffi, pip, setuptools or wheel" \
    "(on Debian: apt-get install python3-cffi python3-pip python3-setuptools python3-wheel)"
root=$PWD
folder=$(mktemp -d)
trap 'rm -rf "$folder"' EXIT
export LC_ALL=C PYTHONDONTWRITEBYTECODE=1 CARGO_NET_OFFLINE=true CARGO_TARGET_DIR=$folder/cargo
unset BALISEPLAN_LIB BALISEPLAN_LIBRARY PKG_CONFIG_PATH LD_LIBRARY_PATH
failed=0

# passes WHAT COMMAND ..: shows what the command printed if it fails
passes() {
    local what=$1
    shift
    "$@" > "$folder/log" 2>&1 || { cat "$folder/log"; echo "$what failed"; failed=1; }
}

# fails WHAT TEXT COMMAND ..: the command has to fail and to print the text
fails() {
    local what=$1 text=$2
    shift 2
    if "$@" > "$folder/log" 2>&1 || ! grep -qF -- "$text" "$folder/log"; then
        cat "$folder/log"
        echo "$what didn't say: $text"
        failed=1
    fi
}

# same WHAT DUE GOT: compares two texts
same() {
    [ "$2" = "$3" ] || { diff <(echo "$2") <(echo "$3") || true; echo "$1 differs"; failed=1; }
}

# without_kit MAKE ..: nothing but this is on the path
bin=$folder/bin
mkdir "$bin"
for tool in chmod env install ln make rm sed sh; do ln -s "$(command -v "$tool")" "$bin/$tool"; done
without_kit() { env PATH="$bin" "$@"; }

installed_files() { (cd "$1" && find . -type f -o -type l) | sed 's|^\./||' | grep -v '^share/doc/' | sort; }
files='bin/baliseplan
include/baliseplan.h
lib/libbaliseplan.a
lib/libbaliseplan.so
lib/libbaliseplan.so.1
lib/pkgconfig/baliseplan.pc
share/bash-completion/completions/baliseplan
share/fish/vendor_completions.d/baliseplan.fish
share/man/man1/baliseplan.1
share/man/man3/baliseplan.3
share/zsh/site-functions/_baliseplan'
# The other programs are installed where they were built.
for name in balisefields balisefacts; do
    [ -f "crates/$name/out/$name" ] || continue
    files=$(printf '%s\n' "$files" "bin/$name" "share/man/man1/$name.1")
done
if [ -f crates/balisefacts/out/balisefacts ]; then
    files=$(printf '%s\n' "$files" share/bash-completion/completions/balisefacts \
        share/fish/vendor_completions.d/balisefacts.fish share/zsh/site-functions/_balisefacts)
fi
files=$(sort <<< "$files")

# Places with spaces, a folder of its own for libraries, and what is left after an uninstall.
odd=(make program="$program" DESTDIR="$folder/a package" PREFIX="/opt/plans and balises")
passes "make install with spaces" without_kit "${odd[@]}" install
same "make install with spaces" "$files" "$(installed_files "$folder/a package/opt/plans and balises")"
passes "make uninstall with spaces" without_kit "${odd[@]}" uninstall
same "make uninstall with spaces" "" "$(find "$folder/a package" -type f -o -type l)"
passes "make install with LIBDIR" \
    without_kit make program="$program" DESTDIR="$folder/lib64" PREFIX=/usr LIBDIR=/usr/lib64 install
same "LIBDIR" "libdir=/usr/lib64" "$(grep ^libdir= "$folder/lib64/usr/lib64/pkgconfig/baliseplan.pc")"
fails "make install of nothing" "isn't built: run 'make program shared' first" \
    without_kit make DESTDIR="$folder/none" program="$folder/none" install

prefix=$folder/prefix
passes "make install" without_kit make program="$program" PREFIX="$prefix" install
same "make install" "$files" "$(installed_files "$prefix")"
while read -r page; do
    [ -f "$prefix/share/doc/baliseplan/$page" ] || { echo "$page is named, and isn't installed"; failed=1; }
done < <(cat include/baliseplan.h man/baliseplan.3 | grep -o '[A-Z]*\.md' | sort -u)
export PKG_CONFIG_PATH=$prefix/lib/pkgconfig
same "the version by pkg-config" "$(sed -n 's/^#define BALISEPLAN_VERSION "\(.*\)"/\1/p' include/baliseplan.h)" \
    "$(pkg-config --modversion baliseplan)"

# Only the calls of the header are names of the libraries, and the shared one is bound when it is loaded.
calls=$(sed -n '/^.. end of cffi/q; s/^[a-z].*[ *]\(baliseplan_[a-z_]*\)(.*/\1/p' include/baliseplan.h | sort)
same "the names of the archive" "$calls" \
    "$(nm -g --defined-only "$prefix/lib/libbaliseplan.a" | awk 'NF == 3 { print $3 }' | sort)"
same "the names of the shared object" "$calls" \
    "$(nm -D --defined-only "$prefix/lib/libbaliseplan.so" | awk '{ print $3 }' | sort)"
passes "the shared object bound when loaded" grep -q BIND_NOW <(readelf -d "$prefix/lib/libbaliseplan.so")

# Completion in bash: the options that begin so, each once.
complete_after() {
    bash -c 'source "$0"; COMP_WORDS=(baliseplan "$@"); COMP_CWORD=$#; _baliseplan; echo "${COMPREPLY[@]}"' \
        "$prefix/share/bash-completion/completions/baliseplan" "$@"
}
same "completion" "--quiet --stop --journal --json --help" "$(complete_after "")"
same "completion after two options" "--journal --json" "$(complete_after --stop --quiet --j)"

# example NUMBER: a program of the manual page
example() {
    awk -v n="$1" '/^\.EX/ { at++; inside = 1; next } /^\.EE/ { inside = 0 } inside && at == n' man/baliseplan.3 |
        sed 's/\\e/\\/g'
}

# The lines of the page and the examples of the manual page.
example 1 > "$folder/tool.c"
example 2 > "$folder/fields.c"
due=$(printf '%s\n' 'ok 1' 'plan 1' group a1007f80a03250900f84ffffffffffffffffffffffffffffffffc0 'journal 2 2' \
    '1 set b0/0/b0 NID_TSR 0 9 5')
cd "$folder"
count=0
while IFS= read -r line; do
    rm -f tool
    passes "$line" bash -c "$line"
    case $line in
        *rpath* | *libbaliseplan.a*) same "$line" "$due" "$(./tool)" ;;
        *) same "$line" "$due" "$(LD_LIBRARY_PATH=$prefix/lib ./tool)" ;;
    esac
    count=$((count + 1))
done < <(sed -n 's/^    \(cc tool\.c .*\)/\1/p' "$root/docs/LIBRARY.md")
[ "$count" -ge 3 ] || { echo "docs/LIBRARY.md has $count lines that build tool.c"; failed=1; }
due_fields=$(printf '%s\n' 'packet 33' '0 8 NID_PACKET 0 66' '8 2 Q_DIR 0 1' '10 13 L_PACKET 0 31' '23 8 NID_TSR 0 0')
passes "the example with fields" \
    bash -c 'cc fields.c $(pkg-config --cflags baliseplan) "$0" -o fields' "$prefix/lib/libbaliseplan.a"
same "the example with fields" "$due_fields" "$(./fields)"

# A place with a space and an ampersand: pkg-config writes it for the shell to read again.
passes "make install to an odd place" \
    without_kit make -C "$root" program="$program" PREFIX="$folder/r&d of plans" install
line="cc tool.c $(PKG_CONFIG_PATH="$folder/r&d of plans/lib/pkgconfig" pkg-config --cflags --libs baliseplan) -o tool"
passes "$line" bash -c "$line"
same "$line" "$due" "$(LD_LIBRARY_PATH="$folder/r&d of plans/lib" ./tool)"

# cffi, by the lines of the page.
sed -n '/^```python cffi$/,/^```$/{/^```/d;p}' "$root/docs/LIBRARY.md" > cffi_caller.py
[ -s cffi_caller.py ] || { echo "docs/LIBRARY.md has no lines for cffi"; failed=1; }
same "the lines for cffi" "2 bad 1 1 BadLine" \
    "$(sed "s|/usr/local|$prefix|" cffi_caller.py | "$python" - 2>&1 | tail -n 1)"

# The wheel, and the module and the crate copied to where the repository isn't.
passes "make wheel" make -C "$root" packed-wheel PYTHON="$python"
passes "the wheel" \
    "$python" -m pip install --quiet --no-index --no-deps --target "$folder/wheel" "$root"/out/wheel/*.whl
one="import baliseplan; print(baliseplan.run_bytes(b''), baliseplan.version())"
answer="(2, b'bad 1 1 BadLine\\n') $(pkg-config --modversion baliseplan)"
same "the module of the wheel" "$answer" "$(cd wheel && "$python" -c "$one" 2>&1)"
cp -R "$root/examples/python/baliseplan" "$root/examples/rust" .
same "the module, copied" "$answer" "$(BALISEPLAN_LIBRARY=$prefix/lib/libbaliseplan.so.1 "$python" -c "$one" 2>&1)"
passes "the crate, copied, by pkg-config" cargo build -q --manifest-path rust/Cargo.toml
cp -R rust other
PKG_CONFIG_PATH=$folder fails "the crate without a library" "set BALISEPLAN_LIB to its folder" \
    env PKG_CONFIG_LIBDIR="$folder" cargo build -q --manifest-path other/Cargo.toml
PKG_CONFIG_PATH=$folder BALISEPLAN_LIB=$prefix/lib passes "the crate, copied, by BALISEPLAN_LIB" \
    cargo build -q --manifest-path other/Cargo.toml
same "the crate, copied" "bad 1 1 BadLine" "$("$folder/cargo/debug/baliseplan" < /dev/null)"

[ "$failed" = 1 ] || echo "what was installed is right"
exit "$failed"
