#!/usr/bin/env bash
# Runs the commands of the pages, block by block, and compares what each block writes with what the page says: those of
# README.md, and of TOUR.md, CLAIMS.md and BOARDS.md in docs.
#
#     tools/checks/check_tour.sh [PROGRAM]
#
# PROGRAM stands as ./pdb_cli in the folder where a page's commands run, which is a temporary one; without it, that is the
# launcher, which builds what is not built. A block that begins with ```sh holds commands; a plain block right below it
# holds what they write, and where there is none they write nothing. The differences are shown for each block that
# fails, and the last line is `N passed, M failed`. The status is 0 if all passed, 1 if one failed, and 2 where there is
# no program to run. It needs python3, as the tour does.
set -uo pipefail

root=$(dirname "$(dirname "$(dirname "$(readlink -f "${BASH_SOURCE[0]}")")")")
if [ "$#" -gt 1 ]; then
    echo 'usage: tools/checks/check_tour.sh [PROGRAM]' >&2
    exit 2
fi
program=$(readlink -f "${1-$root/pdb_cli}")
if ! "$program" --help >/dev/null; then
    echo "there is no program to run: $program --help fails" >&2
    exit 2
fi

work=$(mktemp -d) || exit 2
trap 'rm -r "$work"' EXIT
passed=0
failed=0

# Each block of commands of the page $1 becomes a file in the folder $2, and what it is to write another; the number of
# blocks is printed.
divide() {
    awk -v folder="$2" '
        /^```/ && into { close(into); below = into ~ /commands$/; into = ""; next }
        /^```sh$/ {
            block = sprintf("%s/%02d", folder, ++blocks)
            into = block ".commands"
            wanted = block ".wanted"
            printf "" >wanted
            next
        }
        /^```/ { into = below ? wanted : "/dev/null"; next }
        into { print >into; next }
        NF { below = 0 }
        END { print blocks + 0 }' "$1"
}

# Runs block number $3 of the page $1, whose folder is $2, and compares what it writes.
try() {
    local block
    block=$2/blocks/$(printf %02d "$3")
    (cd "$2/folder" && bash "$block.commands") >"$block.written" 2>&1 </dev/null
    if diff "$block.wanted" "$block.written" >"$block.differences"; then
        passed=$((passed + 1))
        return
    fi
    failed=$((failed + 1))
    echo "FAILED: $1, block $3, which begins with: $(head -n 1 "$block.commands")"
    echo "wanted <, written >:"
    cat "$block.differences"
}

# Runs all blocks of the page $1. What a page leaves behind in its folder is a failure too.
try_page() {
    local place=$work/${1##*/} blocks i
    mkdir -p "$place/blocks" "$place/folder"
    ln -s "$program" "$place/folder/pdb_cli"
    ln -s "$root/tools" "$place/folder/tools"
    blocks=$(divide "$root/$1" "$place/blocks")
    for ((i = 1; i <= blocks; i++)); do
        try "$1" "$place" "$i"
    done
    if [ "$blocks" = 0 ] || [ "$(cd "$place/folder" && echo *)" != 'pdb_cli tools' ]; then
        failed=$((failed + 1))
        echo "FAILED: $1 has no block of commands, or leaves files: $(cd "$place/folder" && echo *)"
    fi
}

for page in README.md docs/TOUR.md docs/CLAIMS.md docs/BOARDS.md; do
    try_page "$page"
done
echo "$passed passed, $failed failed"
[ "$failed" = 0 ] && [ "$passed" -gt 0 ]
