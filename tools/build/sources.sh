# shellcheck shell=bash disable=SC2034,SC2154
# Which files the program is made of, and the list by which a start knows that none of them has changed. `pdb_cli` and the
# scripts beside this one source this file with `root` set to the checkout's absolute path. It needs coreutils alone, and git
# where there is one. Kept below the checkout are:
#
#     out/pdb_cli     the program
#     out/built       a record of it: where it was proved, in which folder it is kept, and what it is made of
#     out/stamp       where it was proved, and the list as it was when all was last found to be as out/built says
#     out/kit         the list of the kit's files, and what names the kit
#     out/proved      of each library what its last check said and made
#     out/build.log   what the last build said
#     out/lock        held by the one launcher that builds, and by what it has started
set -o pipefail
shopt -s extglob nullglob globstar
# Of these the first hides files, the second ends waits, and the third has bash read scripts otherwise.
unset GLOBIGNORE TMOUT POSIXLY_CORRECT

kept=$root/out
program=$kept/pdb_cli
# The crate at the top of what is made.
top=pdb_cli

# Writes a message, and has the status 1.
say() { printf 'pdb_cli: %s\n' "$1" >&2; return 1; }

# Whether a program that was proved there may run, and not one proved here alone.
may_run() { [[ $1 == proved || ${PDB_PROVED_HERE-} == @(|0) ]]; }

# Sets `kit` to the folder of the kit whose command `rt` is on the PATH.
find_kit() {
    kit=$(type -P rt) && { [[ $kit == /* && ! -L $kit ]] || kit=$(readlink -f -- "$kit"); } && kit=${kit%/*/*} && [ -f "$kit/KIT-ID" ]
}

# Sets `crates` to `top` and those below it, and `uses` to what each of all crates uses, as crates.txt has it in the folder at hand.
read_crates() {
    local line at use
    declare -gA uses=()
    while IFS= read -r line || [ -n "$line" ]; do
        line=${line%%#*}
        [[ $line == *[!\ ]* ]] || continue
        [[ $line =~ ^([a-z0-9_]+)(\ +staticlib)?\ *:([a-z0-9_,\ ]*)$ ]] || say "crates.txt: a line has more than libraries: $line" || return
        uses[${BASH_REMATCH[1]}]=${BASH_REMATCH[3]//,/ }
    done <crates.txt && [ -n "${uses[$top]+listed}" ] || say "crates.txt has no line of $top" || return
    crates=("$top")
    for ((at = 0; at < ${#crates[@]}; at++)); do
        for use in ${uses[${crates[at]}]}; do
            [[ -z ${uses[$use]+listed} || " ${crates[*]} " == *" $use "* ]] || crates+=("$use")
        done
    done
}

# Sets `paths` to the files that the program is made of, in the folder at hand. A build has no others. What a link among them leads
# to would be in no digest, so there may be none.
find_paths() {
    local name path all=(HANDLES tools/build{,/build.sh})
    read_crates || return
    for name in "${crates[@]}"; do all+=("crates/$name"{,/{src,specs,proofs}{,/**}}); done
    paths=()
    for path in "${all[@]}"; do
        if [[ -L $path ]]; then
            say "$path is a link, and what it leads to is no source: put a file or a folder in its place" || return
        elif [[ -f $path ]]; then
            [[ $path != crates/* || $path == *.@(rt|antt) ]] || continue
            paths+=("$path")
        elif [[ -e $path && ! (-d $path && -r $path && -x $path) ]]; then
            say "$path cannot be read" || return
        fi
    done
}

# Writes a digest of all that the program is made of, in the checkout or in the folder $1, and when the youngest of it changed.
digest() {
    (
        cd -P -- "${1-$root}/" && find_paths && sum=$({
            for name in "${crates[@]}"; do read -ra words <<<"${uses[$name]}" && echo "$name: ${words[*]}"; done
            sha256sum -- "${paths[@]}" | LC_ALL=C sort
        } | sha256sum) && young=$(stat -c %Z -- crates.txt "${paths[@]}" | sort -n | tail -n 1) && echo "${sum%% *} $young"
    ) || say "not all sources below ${1-$root} can be read and compared"
}

# Whether the file $1 has the digest $2.
has_digest() {
    local now
    now=$(sha256sum -- "$1") && [ "${now%% *}" = "$2" ]
}

# Writes a digest of the names, sizes and times of these files and of all in these folders. Whatever changes a file changes the
# list, if the clock has ticked since it was made.
list() { du -0abl --time=ctime --time-style=+%s.%N -- "$@" | sha256sum; }

# The same of all that may not change if the program is not to be chosen again, and of git's list of files, as out/ may not be one.
list_all() {
    local kit paths=("$root/"{@(crates.txt|HANDLES|pdb_cli|dist),tools/build,crates/*/{src,specs,proofs},out/@(pdb_cli|built),.git/@(index)})
    ! find_kit || paths+=("$kit/"{KIT-ID,bin})
    list "${paths[@]}"
}

# Whether the list alone tells that the program that is kept is the one to run.
is_listed() {
    local way listed
    [[ -O $kept && -r $kept/stamp ]] && read -r way listed <"$kept/stamp" && may_run "$way" && [ "$listed" = "$(list_all)" ]
}
