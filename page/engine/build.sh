#!/usr/bin/env bash
# Builds the engine of the page: crates/balise_c as WebAssembly.
# usage: page/engine/build.sh [OUT]     (page/out/engine.wasm)
# Needs the crates proved, a Rattle kit, and wasm-opt (Debian: binaryen). Ends with 3 where one of them is missing.
#
# The kit hands clang one module of LLVM for x86-64. It is kept, compiled once more for a 64-bit WebAssembly, linked
# with heap.c, and lowered to a memory of 32 bits, which every browser has.
set -euo pipefail
here=$(cd "$(dirname "$0")" && pwd)
top=$(cd "$here/../.." && pwd)
out=${1:-$top/page/out/engine.wasm}

missing() { echo "NOT RUN: $1 is missing"; exit 3; }
command -v rt > /dev/null || missing "a Rattle kit"
command -v wasm-opt > /dev/null || missing binaryen
kit=$(dirname "$(dirname "$(realpath "$(command -v rt)")")")
clang=$kit/toolchain/bin/clang

work=$(mktemp -d)
trap 'rm -rf "$work"' EXIT

# A kit of links, whose clang keeps the module that it is given.
keep_the_module() {
    mkdir -p "$work/kit/bin" "$work/kit/toolchain/bin"
    local entry tool
    for entry in "$kit"/*; do
        case $(basename "$entry") in
            bin | toolchain) ;;
            *) ln -s "$entry" "$work/kit/$(basename "$entry")" ;;
        esac
    done
    cp "$kit"/bin/* "$work/kit/bin/" # rt looks for its kit from where it lies, so a link won't do
    ln -s "$kit/toolchain/lib" "$work/kit/toolchain/lib"
    for tool in "$kit"/toolchain/bin/*; do ln -s "$tool" "$work/kit/toolchain/bin/$(basename "$tool")"; done
    rm "$work/kit/toolchain/bin/clang"
    cat > "$work/kit/toolchain/bin/clang" <<CLANG
#!/usr/bin/env bash
[ -f module.bc ] && cp module.bc "$work/module.bc"
exec "$clang" "\$@"
CLANG
    chmod +x "$work/kit/toolchain/bin/clang"
    rm -f "$top/crates/balise_c/out/libbalise_c.a" # so that it is linked again
    (cd "$top/crates/balise_c" && "$work/kit/bin/rt" lib)
    [ -f "$work/module.bc" ] || { echo "the kit gave clang no module.bc" >&2; exit 1; }
}

# The same module with the layout and target of wasm64, and the calls of heap.c. Only what platform.ll replaces may be
# of x86-64: anything else stops the build.
for_wasm64() {
    local layout
    layout=$(echo 'int x;' | "$clang" --target=wasm64-unknown-unknown -x c -S -emit-llvm -o - - | grep '^target datalayout')
    "$clang" --target=x86_64-unknown-linux-gnu -x ir "$work/module.bc" -S -emit-llvm -o - |
        sed -E -e "s|^target datalayout.*|$layout|" \
            -e 's|^target triple.*|target triple = "wasm64-unknown-unknown"|' \
            -e 's/ "(target-cpu|target-features|tune-cpu|probe-stack|stack-probe-size)"="[^"]*"//g' \
            -e 's/@llvm.x86.ssse3.pshuf.b.128/@shuffle_bytes/' -e '/^declare <16 x i8> @shuffle_bytes/d' \
            -e '/^declare .*@rattle_(alloc|realloc|dealloc)/d' > "$work/engine.ll"
    if grep -nE 'llvm\.x86\.|\bmodule asm\b|\basm (sideeffect|"|alignstack|inteldialect)|x86_fp80|x86_mmx|x86_amx' \
        "$work/engine.ll" | head -5 | grep .; then
        echo "the module has more of x86-64 than platform.ll replaces" >&2
        exit 1
    fi
    cat "$here/platform.ll" >> "$work/engine.ll"
}

# Plain WebAssembly with sign extension and nothing beyond: binaryen can lower no more, and every browser takes it.
link_and_lower() {
    local flags=(--target=wasm64-unknown-unknown -mno-bulk-memory -mno-bulk-memory-opt -mno-nontrapping-fptoint
        -mno-multivalue -mno-reference-types -msign-ext -O3 -c)
    "$clang" "${flags[@]}" -Wno-override-module -x ir "$work/engine.ll" -o "$work/engine.o"
    "$clang" "${flags[@]}" -ffreestanding -fno-builtin "$here/heap.c" -o "$work/heap.o"
    ln -s "$kit/toolchain/bin/ld.lld" "$work/wasm-ld"
    "$work/wasm-ld" -mwasm64 --no-entry --gc-sections --strip-all -z stack-size=1048576 --export-memory \
        --export=baliseplan_run --export=baliseplan_size --export=baliseplan_facts --export=baliseplan_explain \
        --export=baliseplan_spell \
        --export=baliseplan_abi --export=malloc \
        "$work/engine.o" "$work/heap.o" -o "$work/engine64.wasm"
    wasm-opt --enable-memory64 --enable-mutable-globals --enable-sign-ext --memory64-lowering -O1 \
        "$work/engine64.wasm" -o "$work/engine.wasm"
}

keep_the_module
for_wasm64
link_and_lower
mkdir -p "$(dirname "$out")"
cp "$work/engine.wasm" "$out.new"
mv "$out.new" "$out"
echo "$out: $(stat -c %s "$out") bytes, sha256 $(sha256sum "$out" | cut -d' ' -f1)"
