#!/usr/bin/env bash
# Builds the engine and the page: page/out/engine.wasm and page/baliseplan.html.
# usage: page/build.sh
# Needs what page/engine/build.sh needs, and Node. `node page/build.mjs` alone puts the page together anew, with the
# engine that it has.
set -euo pipefail
here=$(cd "$(dirname "$0")" && pwd)
command -v node > /dev/null || { echo "NOT RUN: nodejs is missing"; exit 3; }
"$here/engine/build.sh" "$here/out/engine.wasm"
node "$here/build.mjs" --engine "$here/out/engine.wasm"
