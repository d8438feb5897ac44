# shellcheck shell=bash disable=SC2015,SC2034,SC2154
# Chooses the program that runs, where the list alone doesn't tell: that which was proved here, or else that of dist/, or else one
# that build.sh makes. `pdb_cli` sources this file with `root` set to the checkout's absolute path. It needs coreutils, and gzip
# to unpack what was released.

# shellcheck source=tools/build/sources.sh
. "$root/tools/build/sources.sh" || return 1
release=$root/dist/RELEASE
# A record of a program. The first line, in out/built alone, says where it was proved, and which folder keeps it; the last two, of
# one that was released, have the digest of the packed program, and which version of the C library it needs.
record=$'^((proved|released) ([-0-9.]+ [-0-9.]+)\n)?program ([0-9a-f]{64})\nsources ([0-9a-f]{64})\nkit ([^\n]+)(\npacked ([0-9a-f]{64})\nneeds ([A-Z0-9_.]+))?$'

# Sets `way`, `place`, `own`, `of`, `by`, `packed` and `needs` to what the record in the file $1 says.
read_record() {
    [[ -f $1 && -r $1 && $(<"$1") =~ $record ]] || return
    way=${BASH_REMATCH[2]} place=${BASH_REMATCH[3]} own=${BASH_REMATCH[4]} of=${BASH_REMATCH[5]} by=${BASH_REMATCH[6]}
    packed=${BASH_REMATCH[8]} needs=${BASH_REMATCH[9]}
}

# Writes which folder out/ is. A record that was copied or unpacked from elsewhere names another.
folder() { stat -c '%i %.9W' -- "$kept"; }

# Refuses an out/ that came with the sources: whoever made it would choose the program.
check_out() {
    [ ! -L "$kept" ] || say "$kept is a link: put a folder in its place, or nothing" || return
    [ ! -e "$kept" ] || [ -z "$(type -P git)" ] || [ -z "$(unset "${!GIT_@}" && git -C "$root" ls-files -- out 2>/dev/null)" ] ||
        say "git tracks files in $kept, so it was not made here: remove it, and what git has of it"
}

# Whether out/ can be written, and is the caller's own. It is made if it isn't there.
can_keep() {
    [[ -e $kept || ! -w $root ]] || (umask 077 && mkdir -p -- "$kept")
    [[ -d $kept && -O $kept && -w $kept ]]
}

# Keeps the file $1, which is in out/, as the program, with the record $3 of one that was proved there: $2.
keep_program() {
    chmod 755 -- "$1" && mv -f -- "$1" "$program" && printf '%s %s\n%s\n' "$2" "$(folder)" "$3" >"$kept/built.$$" &&
        mv -f -- "$kept/built.$$" "$kept/built"
}

# Writes what names the kit: a digest of its commands, its logic, its code in C and the sums of its libraries, and its own line.
# The digest is made where the list of these files is not that which is kept.
name_kit() {
    local listed line by file files=()
    local all=("$kit/"{KIT-ID,bin/rattle,bin/rattle-link,rattle/logic/antt-project.json,c,logic_built,toolchain} "$kit/rlibs/"*/format)
    listed=$(list "${all[@]}") && IFS= read -r line <"$kit/KIT-ID" && [ -n "$line" ] || say "the kit in $kit cannot be read" || return
    if [[ -O $kept && -r $kept/kit && $(<"$kept/kit") == "$listed"$'\n'* ]]; then
        by=$(<"$kept/kit") && echo "${by#*$'\n'}"
        return
    fi
    for file in "${all[@]}" "$kit/"{c,logic_built,toolchain}/**; do [ ! -f "$file" ] || files+=("${file#"$kit/"}"); done
    by=$(cd -- "$kit" && sha256sum -- "${files[@]}" | LC_ALL=C sort | sha256sum) || say "the kit in $kit cannot be read" || return
    by="${by%% *} $line"
    echo "$by"
    ! can_keep || { printf '%s\n' "$listed" "$by" >"$kept/kit.$$" && mv -f -- "$kept/kit.$$" "$kept/kit"; } || true
}

# Sets `now` to the digest of the sources, `young` to when the youngest of them changed, and `listed` to the list, made before.
look() {
    began=$EPOCHSECONDS
    listed=$(list_all) || listed=
    now=$(digest) || return
    young=${now#* } now=${now% *}
}

# Keeps the list for later starts, if nothing is so young that a change since might not change it.
keep_list() {
    local times
    [[ -n $listed && -O $kept && -w $kept ]] && times=$(stat -c %Z -- "$program" "$kept/built" "$root/dist/"*) || return 0
    for times in $times $young; do [ "$times" -lt "$((began - 3))" ] || return 0; done
    times=$({ echo "$way $listed" >"$kept/stamp.$$" && mv -f -- "$kept/stamp.$$" "$kept/stamp"; } 2>&1) || return 0
}

# Whether the program that is kept was proved here, of the sources as they are, by the kit that is on the PATH, if one is.
is_proved() {
    [[ -O $kept ]] && read_record "$kept/built" && [[ $way == proved && $of == "$now" && $place == "$(folder)" && -x $program ]] &&
        has_digest "$program" "$own" && { ! find_kit || [ "$by" = "$(name_kit)" ]; }
}

# Unpacks the program of dist/ as the file $1, and starts it once.
unpack() {
    local said file=$root/dist/pdb_cli.gz
    has_digest "$file" "$packed" || say 'dist/pdb_cli.gz is not what dist/RELEASE names' || return
    gzip -dc <"$file" >"$1" && chmod 755 -- "$1" || say "dist/pdb_cli.gz cannot be unpacked to ${1%/*}" || return
    has_digest "$1" "$own" || say 'dist/pdb_cli.gz is not what dist/RELEASE names' || return
    said=$("$1" --version 2>&1 <"$file") && return
    said=${said##*$'\n'} said=${said##*: line +([0-9]): }
    say "the program of dist/, which needs Linux on x86-64-v2 and a C library with $needs, doesn't run here: ${said//"$1"/it}"
}

# Takes the program of dist/, if it was made of the sources as they are, or else says why not. It is kept in out/, or, where that
# can't be, in the temporary folder `room`, and `program` is set to it.
take_released() {
    local file new=$program.$$
    [ -e "$root/dist" ] || return
    for file in dist dist/RELEASE dist/pdb_cli.gz; do
        [ ! -L "$root/$file" ] || say "$file is a link, so it is not taken" || return
    done
    read_record "$release" && [ -n "$packed" ] || say 'dist/RELEASE is no record of a program' || return
    [ "$of" = "$now" ] || say 'dist/ was made of other sources than these' || return
    [ "$(uname -sm)" = 'Linux x86_64' ] || say "dist/ has a program for Linux x86_64, and this is $(uname -sm)" || return
    way=released
    if can_keep; then
        [[ ! -r $kept/built || $(<"$kept/built") != "$way $(folder)"$'\n'"$(<"$release")" ]] || ! has_digest "$program" "$own" || return 0
    else
        room=$(mktemp -d) && new=$room/pdb_cli || say 'no folder can be made to unpack dist/ to' || return
    fi
    listed=
    if unpack "$new" && { [ -n "$room" ] || keep_program "$new" "$way" "$(<"$release")"; }; then
        [ -z "$room" ] || program=$new
        say 'this program was proved where it was released, not here: ./pdb_cli prove-here proves it here' || return 0
    fi
    rm -rf -- "${room:-$new}"
    room=
    return 1
}

# Chooses the program that runs: sets `program`, `way`, `own`, `of` and `by`.
choose() {
    check_out || return
    [[ ! -e $kept || -O $kept ]] || say "$kept is another user's, so nothing in it is taken"
    look || return
    if is_proved || { may_run released && take_released; }; then
        keep_list
        return
    fi
    # shellcheck source=tools/build/build.sh
    . "$root/tools/build/build.sh" || say "$root/tools/build/build.sh cannot be read" || return
    provide
}
