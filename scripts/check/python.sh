#!/usr/bin/env bash
# Prints a Python that has some modules: scripts/check/python.sh MODULE ..
# The first python3 of the path may not be Debian's, and then doesn't see Debian's packages.
# Ends with 2 where there is none, and says which module the last one lacks, with its Debian package.
set -u
modules="$*"
missing="Python 3.11 or later (on Debian: apt-get install python3)"
while read -r python; do
    [ -n "$python" ] || continue
    missing=$("$python" - "$modules" <<'LOOK'
import importlib.util, sys
if sys.version_info < (3, 11):
    print("Python 3.11 or later")
absent = [name for name in sys.argv[1].split() if importlib.util.find_spec(name) is None]
if absent:
    packages = " ".join(f"python3-{name}" if name != "mypy" else name for name in absent)
    print(f"{', '.join(absent)} for {sys.executable} (on Debian: apt-get install {packages})")
LOOK
    ) || continue
    if [ -z "$missing" ]; then
        echo "$python"
        exit 0
    fi
done < <(echo "${PYTHON:-}"; type -ap python3; echo /usr/bin/python3)
echo "missing: $missing" >&2
exit 2
