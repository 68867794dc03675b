#!/usr/bin/env bash
# Looks whether the manual pages are laid out without a warning: scripts/check/manual.sh.
# Ends with 0; with 1 if there is a warning, which it shows; with 2 if mandoc is missing.
set -eu
cd "$(dirname "$0")"
python3 runs.py mandoc || exit 2
mandoc -T lint -W warning ../../man/*.1 || exit 1
echo "manual: no warning"
