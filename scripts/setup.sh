#!/usr/bin/env bash
# Installs the Debian packages that the checks, the pages and the tools of this repository need: scripts/setup.sh.
# Where all are there it does nothing. As root it installs those that are missing, else it prints the line that does.
# The proofs need a Rattle kit besides (README.md), and the caller of the library in Rust a Rust toolchain.
# Ends with 0, or with 1 if something is missing still.
set -u
packages=(
    # the checks of the program and of the library
    bats binutils diffutils g++ gcc graphviz jq libc6-dev make mandoc pkgconf python3 shellcheck strace time valgrind
    mypy python3-cffi python3-hypothesis python3-pip python3-pytest python3-setuptools python3-wheel
    # page/ and desk/
    binaryen chromium chromium-driver firefox-esr node-typescript nodejs python3-click python3-jinja2 python3-rich python3-selenium
    # make dist and make check-dist
    debootstrap git
)
command -v cargo > /dev/null || packages+=(cargo)

# absent: the packages that aren't installed
absent() {
    dpkg-query -W -f '${Package} ${db:Status-Status}\n' "${packages[@]}" 2> /dev/null |
        awk -v wanted="${packages[*]}" '
            $2 == "installed" { there[$1] = 1 }
            END { n = split(wanted, names, " "); for (i = 1; i <= n; i++) if (!there[names[i]]) print names[i] }
        '
}

if ! command -v dpkg-query apt-get > /dev/null; then
    echo "setup.sh: this is no Debian. These packages of Debian are needed: ${packages[*]}" >&2
    exit 1
fi
mapfile -t missing < <(absent)
if [ "${#missing[@]}" = 0 ]; then
    echo "setup.sh: all ${#packages[@]} packages are there"
    exit 0
fi
if [ "$(id -u)" != 0 ]; then
    echo "setup.sh: run this as root: apt-get update && apt-get install --no-install-recommends ${missing[*]}" >&2
    exit 1
fi
export DEBIAN_FRONTEND=noninteractive
echo "setup.sh: installs ${missing[*]}"
apt-get -q -o DPkg::Lock::Timeout=600 update &&
    apt-get -q -y -o DPkg::Lock::Timeout=600 install --no-install-recommends "${missing[@]}"
mapfile -t missing < <(absent)
if [ "${#missing[@]}" != 0 ]; then
    echo "setup.sh: missing still: ${missing[*]}" >&2
    exit 1
fi
echo "setup.sh: all ${#packages[@]} packages are there"
