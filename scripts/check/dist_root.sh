#!/usr/bin/env bash
# What dist.sh runs in the bare Debian, as root and without a network: installs the package, looks at what a user meets,
# and removes it. usage: dist_root.sh PACKAGE ARCHIVE CHECKS
# CHECKS has examples.py with what it imports, and links to the pages and examples that were installed.
# Ends with 0, or with 1 if something is wrong, which it shows.
set -u
package=$1 archive=$2 checks=$3
export LC_ALL=C.UTF-8 HOME=/home/planner
documents=/usr/share/doc/baliseplan
failed=0

# passes WHAT COMMAND ..: shows what the command printed if it fails
passes() {
    local what=$1
    shift
    if "$@" > /tmp/log 2>&1; then
        echo "right   $what"
    else
        tail -n 40 /tmp/log
        echo "WRONG   $what"
        failed=1
    fi
}

# A user who may not write where the package is
as_user() { setpriv --reuid planner --regid planner --clear-groups "$@"; }
in_user_shell() { (cd "$HOME" && as_user bash -euo pipefail -c "$@"); }

# files_there: all names, but for what apt, dpkg and ldconfig note of each install
files_there() {
    find / -xdev \( -path /proc -o -path /sys -o -path /dev -o -path /tmp -o -path /home -o -path /var/lib/dpkg -o -path /var/lib/apt \
        -o -path /var/cache -o -path /var/log \) -prune -o -print | sort
}

prints_the_example() { baliseplan < $documents/examples/temporary_speed.plan | cmp - $documents/examples/temporary_speed.out; }

# A day's work and its delivery, by the desk in the folder $1
delivery='
rm -rf "$1" && mkdir "$1" && cd "$1"
"$2" init "$3/line.base"
"$2" do set 5.200 1 0 V_TSR 0 30km/h renumber 5.200 250 turn 5.300
"$2" fields 5.100 0 0 > links
"$2" do replace 5.100 0 0 @links
! "$2" strike 4
"$2" log > said
grep -q "needs 4" said
"$2" verify base.plan journal line.plan | tee said
grep -q "They belong together. Both programs make it." said
sed "s/^a1007f80a0fa/a1007f00a0fa/" line.plan > changed.plan
! "$2" verify base.plan journal changed.plan
"$2" report --title "Line 5"
grep -q "Both programs make it" report.html'

caller='
cd "$HOME" && cp '$documents'/examples/c/*.[ch] .
cc run.c $(pkg-config --cflags --libs baliseplan) -o run
cc run.c $(pkg-config --cflags baliseplan) "$(pkg-config --variable=libdir baliseplan)/libbaliseplan.a" -o run_static
for each in ./run ./run_static; do
    $each < '$documents'/examples/temporary_speed.plan | cmp - '$documents'/examples/temporary_speed.out
done
ldd run | grep -q "libbaliseplan.so.* => /"
! ldd run_static | grep baliseplan'

manuals='
for page in 1:baliseplan 1:balisefields 1:balisefacts 3:baliseplan 1:plandesk; do
    man --where "${page%%:*}" "${page#*:}"
    man "${page%%:*}" "${page#*:}" | grep -q .
done'

from_the_archive='
rm -rf "an archive" && mkdir "an archive" && tar -xzf "$1" -C "an archive" && cd "an archive"/*
sha256sum --quiet -c SHA256SUMS
bin/baliseplan < examples/temporary_speed.plan | cmp - examples/temporary_speed.out
PKG_CONFIG_PATH=$PWD/lib/pkgconfig
export PKG_CONFIG_PATH
eval "cc examples/c/run.c $(pkg-config --cflags --libs baliseplan) -Wl,-rpath,\"$PWD/lib\" -o ../run"
../run < examples/temporary_speed.plan | cmp - examples/temporary_speed.out
PATH=$PWD/bin:/usr/bin:/bin man -w plandesk | grep -q "$PWD"'

id planner > /dev/null 2>&1 || useradd --create-home planner
depends=$(dpkg-deb -f "$package" Depends)
passes "what it depends on is installed from Debian" apt-get satisfy -q -y --no-download --no-install-recommends "$depends"
files_there > /tmp/before
passes "the package is installed" apt-get install -q -y --no-install-recommends "$package"

passes "the example is answered as it is stored" prints_the_example
passes "a delivery is verified by both programs" in_user_shell "$delivery" - "$HOME/line" plandesk $documents/examples
passes "all files have the sums of SHA256SUMS" env -C / sha256sum --quiet -c $documents/SHA256SUMS
passes "all files have the sums that dpkg has" bash -c 'dpkg -s baliseplan && ! dpkg --verify baliseplan | grep .'
passes "the manual pages are found" in_user_shell "$manuals"
passes "callers in C are compiled by pkg-config" in_user_shell "$caller"
passes "examples and pages" in_user_shell "cd $checks && python3 scripts/check/examples.py /usr/bin/baliseplan examples formats guide manual"
echo "        $(tail -n 1 /tmp/log)"
passes "the archive is used where it was unpacked" in_user_shell "$from_the_archive" - "$archive"
passes "a delivery is verified from the archive" in_user_shell "$delivery" - "$HOME/line" "$(echo "$HOME"/an\ archive/*/bin/plandesk)" $documents/examples

passes "the package is removed" apt-get purge -q -y baliseplan
files_there > /tmp/after
passes "nothing of it is left" diff /tmp/before /tmp/after
exit "$failed"
