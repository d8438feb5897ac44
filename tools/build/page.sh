#!/usr/bin/env bash
# Makes the page: the program as a module of WebAssembly, and one file of HTML round it.
#
#     tools/build/page.sh [WEB PAGE]
#
# The page is made of the parts in the folder web/, and kept as out/page/pdb_cli.html; or of those in WEB, as the file PAGE. It stands
# on what was proved here, by `.ci/run` or `./pdb_cli prove-here`: the program, and the libraries that these leave. The module is made
# of what the kit hands to its compiler of C as it builds the program: the same text for LLVM, said to be for wasm64. That text is
# taken where the compiler makes of it, byte for byte, the program that was proved. The program as compiled for the page is kept for a
# week, for all checkouts of the same user, below ~/.cache, and taken again while sources, kit and how it is compiled are as they were.
# The same sources give the same page. The status is 0 where it is made.
# shellcheck disable=SC2015
set -uo pipefail
root=$(dirname "$(dirname "$(dirname "$(readlink -f "${BASH_SOURCE[0]}")")")")
# shellcheck source=tools/build/build.sh
. "$root/tools/build/build.sh" || exit 1
[ "$#" = 0 ] || [ "$#" = 2 ] || { echo 'usage: tools/build/page.sh [WEB PAGE]' >&2; exit 2; }
store=${XDG_CACHE_HOME:-${HOME:-$kept}/.cache}/pdb_cli
web=$(readlink -f "${1-$root/web}") page=$(readlink -m "${2-$kept/page/pdb_cli.html}")
machine=(--target=wasm64-unknown-unknown -O3 -mbulk-memory -mmutable-globals -mnontrapping-fptoint -msign-ext -msimd128)

# Puts the proved libraries into the folder at hand, which has a copy of the sources: those that prove-here has saved, or else those
# that the gate has left.
take_libraries() {
    local name order=() saved=$kept/proved
    local -A sums=()
    find_order
    for name in "${crates[@]:1}"; do
        [ -e "$name.rlib" ] || cp -R -- "$root/crates/$name/out/rlib/$name.rlib" . 2>/dev/null ||
            say "no proved library $name is kept: .ci/run leaves it in a clean checkout, and ./pdb_cli prove-here" || return
    done
}

# Builds the program there as the launcher does, by a compiler of C that leaves the text that it gets as `module.bc`. The libraries
# of the kit come before the crates by the names of their folders, as for the launcher: functions stand in that order.
build_copy() {
    local own=$kit kit=$PWD/.kit there jobs most
    there=$(printf %q "$PWD")
    mkdir -p .kit/toolchain/bin && ln -s "$own/"{bin,c,rlibs,rattle,logic_built} .kit && ln -s "$own/toolchain/lib" .kit/toolchain &&
        ln -s "$own/toolchain/bin/"{ld.lld,llvm-ar,rattle-x64} .kit/toolchain/bin || return
    cat >.kit/toolchain/bin/clang <<END_OF_CLANG && chmod +x .kit/toolchain/bin/clang && find_room || return
#!/bin/bash
for word; do [[ \$word != *module.bc ]] || { cp -- "\$word" $there/new.bc && mv $there/new.bc $there/module.bc; }; done
exec $(printf %q "$own")/toolchain/bin/clang "\$@"
END_OF_CLANG
    (check_crate pdb_cli 0) >build.log 2>&1 && "$own/bin/rattle-link" --target x86_64-unknown-linux-gnu --toolchain "$own/toolchain" \
        -o pdb_cli pdb_cli.o "$own"/c/lib{os,libc}_c.a >>build.log 2>&1 || { tail -n 20 build.log >&2; say 'the program is not built'; }
}

# Compiles that text for WebAssembly, as `program.o`, as soon as the process $1, which builds the program, has left it. The
# program's `main` becomes the function that the layer of C calls, and to which it returns the status.
compile_copy() {
    while [ ! -e module.bc ] && kill -0 "$1" 2>/dev/null; do sleep 1; done
    [ -e module.bc ] && "$kit/toolchain/bin/clang" --target=x86_64-unknown-linux-gnu -x ir module.bc -S -emit-llvm -O0 -Xclang -disable-llvm-passes -o module.ll &&
        sed -e 's/^target datalayout = .*/target datalayout = "e-m:e-p:64:64-p10:8:8-p20:8:8-i64:64-i128:128-n32:64-S128-ni:1:10:20"/' \
            -e 's/^target triple = .*/target triple = "wasm64-unknown-unknown"/' \
            -e 's/"probe-stack"="inline-asm"//; s/"stack-probe-size"="[0-9]*"//; s/"target-cpu"="[^"]*"//' \
            -e 's/^define internal noundef i32 @"pdb_cli::main+start"/define i32 @start_of_program/; s/@"pdb_cli::main+start"/@start_of_program/' \
            -e 's/@llvm.arithmetic.fence.f64/@fence/g; s/^declare double @fence.*/define double @fence(double %x) { ret double %x }/' \
            module.ll >wasm.ll &&
        "$kit/toolchain/bin/clang" "${machine[@]}" -ffunction-sections -fdata-sections -mllvm -no-trap-after-noreturn -mllvm -trap-unreachable \
            -mllvm -sink-common-insts=false -c -x ir wasm.ll -o program.o
}

# Sets `object` to the program as compiled for the page, and has that made, unless it is kept.
provide_program() {
    local made new=$store/new.$$
    made=$(sha256sum <<<"$now$by$(declare -f build_copy compile_copy)${machine[*]}") && object=$store/${made%% *}.o || return
    [ ! -O "$object" ] || return 0
    is_proved || say 'no program is kept that was proved here, of the sources as they are: .ci/run proves it, and ./pdb_cli prove-here' || return
    say 'making the module of the page, some minutes' || mkdir "$room/copy" || return
    cp -RH --no-preserve=mode --parents -- crates.txt tools/build "${paths[@]}" "$room/copy" && (
        export TMPDIR=$room/copy && cd -- "$room/copy" && unset RT_ALLOW_C RT_BACKEND && take_libraries || exit
        build_copy &
        compile_copy "$!" && wait "$!" || exit
        # (behind what is linked stands a line of 73 bytes on the sources)
        cmp -s -- pdb_cli <(head -c -73 -- "$program") ||
            say 'the text is not that of the proved program: remove out/proved and crates/*/out, and run .ci/run'
    ) && (umask 077 && mkdir -p -- "$store") && find "$store" -name '*.o' -mtime +7 -delete &&
        cp -- "$room/copy/program.o" "$new" && mv -- "$new" "$object"
}

# Links the program and the layer of C to the module $1.
link_module() {
    local name clang=$kit/toolchain/bin/clang
    for name in system machine; do
        "$clang" "${machine[@]}" -Wall -Wextra -Werror -ffreestanding -fno-builtin -nostdinc -c "$name.c" -o "$name.o" || return
    done
    (exec -a wasm-ld "$clang" -mwasm64 --no-entry --gc-sections -z stack-size=4194304 -O2 --strip-debug \
        "$object" {system,machine}.o -o "$1")
}

# Writes the licences of the kit's libraries that the program is made with, and of those below them.
write_notices() {
    local crate name file names=() all=()
    for crate in "${crates[@]}"; do
        for name in ${uses[$crate]}; do [ -d "$root/crates/$name" ] || names+=("$name"); done
    done
    while [ "${#names[@]}" != 0 ]; do
        all+=("${names[@]}")
        mapfile -t names < <(for name in "${names[@]}"; do sed -n 's/^dep //p' "$kit/rlibs/$name.rlib/format"; done |
            grep -vxF "$(printf '%s\n' "${all[@]}")" | sort -u)
    done
    for name in $(printf '%s\n' "${all[@]}" | sort -u); do
        for file in "$kit/rattle/$name/LICENSE-MIT" "$kit/rattle/$name/LICENSE"; do
            [ ! -f "$file" ] || { echo "== $name" && cat -- "$file"; }
        done
    done
}

# Makes the page. It says what it is made of: the digests of the sources and of its own parts, and the kit.
make_page() {
    local part parts edits=()
    cp -- "$web/"* "$root/"{tools/build/page.sh,docs/results/korf_1985.claims} "$room" && cd -- "$room" || return
    parts=$(sha256sum -- *.* | LC_ALL=C sort | sha256sum) && link_module pdb_cli.wasm && gzip -9nc pdb_cli.wasm | base64 >pdb_cli.wasm.gz &&
        write_notices | sed 's/&/\&amp;/g; s/</\&lt;/g' >NOTICES || return
    for part in page.css claims.js page.js worker.js korf_1985.claims pdb_cli.wasm.gz NOTICES; do
        edits+=(-e "/^@@$part@@\$/{" -e "r $part" -e d -e '}')
    done
    sed -e "s/@@MADE_OF@@/$now ${parts%% *} $by/; s/@@SOURCES@@/$now/; s/@@KIT@@/${by#* }/" "${edits[@]}" page.html >page.new &&
        mkdir -p -- "${page%/*}" && mv -- page.new "$page"
}

room=$(mktemp -d) || exit 1
trap 'rm -rf -- "$room"' EXIT
find_kit && by=$(name_kit) && look && cd -- "$root" && find_paths && provide_program && make_page || say 'the page is not made'
