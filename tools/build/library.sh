#!/usr/bin/env bash
# Makes the library of the checks, of the sources as they are, in a folder that is there, or compares it with that of dist/:
#
#     tools/build/library.sh FOLDER
#     tools/build/library.sh compare FOLDER
#
# FOLDER gets libpdb_checker.a, libpdb_checker.so, pdb.h, pdb_checker.py, and LIBRARY, a record of them. The kit proves the crate
# pdb_checker, over the libraries below it that are proved; all is made by the kit's own tools, so it is the same on each machine.
# With `compare` FOLDER has it already: the status is 1 where dist/ has another one, and 2 where it has none of these sources.
set -uo pipefail
root=$(dirname "$(dirname "$(dirname "$(readlink -f "${BASH_SOURCE[0]}")")")")
# shellcheck source=tools/build/choose.sh
. "$root/tools/build/choose.sh" || exit 1
top=pdb_checker
texts=(pdb.h pdb_checker.py)
made=(libpdb_checker.a libpdb_checker.so "${texts[@]}")
# What the kit must say last of the crate: proved, without threads, and of functions in C those of the heap alone.
verdict='^logic=proved functions=[0-9]+ axioms=[0-9]+ target=x86_64-unknown-linux-gnu cpu=x86-64-v2 sum=dac8208d650f15bf '

# Writes the record of what is in the folder at hand.
record_of() {
    local of by
    find_kit && by=$(name_kit) && of=$(digest) && sha256sum -- "${made[@]}" && echo "sources ${of% *}" && echo "kit $by"
}

# Writes what a record says of the sources, of which two are there as they are.
sources_in() { grep -e '^sources ' -e ' pdb\.h$' -e ' pdb_checker\.py$' -- "$1"; }

# Has the kit's checker prove the crate, over the libraries that the gate has proved, and compile it to the file $1.
build_archive() {
    local use place jobs words=(--extern "std=$kit/rlibs/std.rlib" -L "dependency=$kit/rlibs")
    for use in "${crates[@]:1}"; do
        place=$root/crates/$use/out/rlib
        [ -d "$place/$use.rlib" ] || say "crates/$use/out has no library that was proved: .ci/run makes it" || return
        words+=(-L "dependency=$place")
        [[ " ${uses[$top]} " != *" $use "* ]] || words+=(--extern "$use=$place/$use.rlib")
    done
    jobs=$(nproc) && cd -- "$root/crates/$top" &&
        "$kit/bin/rattle" build --crate-name "$top" src/lib.rt --crate-type staticlib "${words[@]}" --links "$top=" \
            --jobs "$((jobs < 4 ? jobs : 4))" --antt-project "$kit/rattle/logic/antt-project.json" --logic-built "$kit/logic_built" \
            --toolchain "$kit/toolchain" --backend llvm -o "$1"
}

# Makes the archive and the shared object in the folder $1.
make_library() {
    local bin said
    find_kit || say 'rt, the command of the Rattle kit, is not on the PATH' || return
    cd -- "$root" && read_crates || return
    bin=$kit/toolchain/bin
    said=$(build_archive "$1/libpdb_checker.a" 2>&1) || say "the library is not proved: ${said##*$'\n'}" || return
    said=${said##*$'\n'}
    [[ $said =~ $verdict ]] || say "the kit's last line on the library is not the verdict that it must be: $said" || return
    cp -- "${texts[@]/#/$root/library/}" "$1" && cd -- "$1" &&
        "$bin/llvm-ar" x "$kit/c/liblibc_c.a" heap.pic.o && "$bin/llvm-ar" rD libpdb_checker.a heap.pic.o 2>/dev/null && rm heap.pic.o &&
        echo '{ global: pdb_checker_*; local: *; };' >exports &&
        "$bin/ld.lld" -shared --build-id=none --gc-sections -z noexecstack -soname libpdb_checker.so --version-script exports \
            -o libpdb_checker.so --whole-archive libpdb_checker.a && rm exports && chmod 644 -- "${made[@]}" && record_of >LIBRARY
}

case $#.${1-} in
2.compare)
    cd -- "$2" || exit
    [ -e "$root/dist/LIBRARY" ] && [ "$(sources_in "$root/dist/LIBRARY")" = "$(sources_in LIBRARY)" ] ||
        say 'dist/ has no library of these sources' || exit 2
    for file in "${made[@]}" LIBRARY; do cmp -- "$file" "$root/dist/$file" || exit 1; done
    echo 'the library is that of dist/, byte for byte'
    ;;
1.?*) make_library "$(readlink -f -- "$1")" ;;
*) sed -n '2,9s/^# *//p' "$0" >&2 && exit 2 ;;
esac
