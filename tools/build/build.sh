# shellcheck shell=bash disable=SC2015,SC2034,SC2154
# Proves and builds the program, and keeps it with a record of what it is made of; and compares it with that of dist/. `pdb_cli`,
# `.ci/run` and release.sh source this file with `root` set to the checkout's absolute path; it takes no arguments, and does
# nothing but define what stands here. A function whose status is not 0 has said why on standard error, unless it only asks.
# Nothing here rests on `set -e`, which is off inside a function whose status is looked at.

# shellcheck source=tools/build/choose.sh
. "$root/tools/build/choose.sh" || return 1
log=$kept/build.log
# What the kit must have said last of the program, word by word. Of a library it is the same, but for how many functions it has and
# how many of them may wait, and without the words from `axioms` to `main`.
verdict='logic=proved functions=15 axioms=43 target=x86_64-unknown-linux-gnu cpu=x86-64-v2 threads=_exit,abort,free,malloc,pthread_attr_destroy,pthread_attr_init,pthread_attr_setguardsize,pthread_attr_setstacksize,pthread_create,pthread_detach,pthread_join,pthread_self,sched_yield,syscall main=Threads+Wait may-wait=1 sum=dac8208d650f15bf native=nat,char,string logic-built=trusted libraries-built=trusted statements=trusted'

# Takes the lock of the builds as the descriptor `lock`, and waits for it.
take_lock() {
    can_keep && { exec {lock}>>"$kept/lock"; } 2>/dev/null ||
        say "$kept cannot be written, so nothing can be built in this checkout" || return
    flock -n "$lock" && return
    [ "$?" != 1 ] || say 'the program is being built already: waiting for that'
    flock "$lock" || say "$kept/lock cannot be locked"
}

# Keeps the program $1 as the one that was proved here of the sources with the digest $2, by the kit that `by` names. Its file ends
# with a line that says which sources, and that it writes behind its version.
install_program() {
    local own
    cp -- "$1" "$program.$$" && [ -x "$program.$$" ] && printf 'sources %s\n' "$2" >>"$program.$$" && own=$(sha256sum <"$program.$$") &&
        keep_program "$program.$$" proved "program ${own%% *}"$'\n'"sources $2"$'\n'"kit $by" || say "the program that was made cannot be copied to $kept"
}

# Whether the file $2 ends with the verdict that the crate $1 must have.
is_allowed() {
    local said
    said=$(tail -n 1 -- "$2")
    if [ "$1" = pdb_cli ]; then
        [ "$said" = "$verdict" ]
    else
        [[ $said =~ ^'logic=proved functions='[1-9][0-9]*(' may-wait='[1-9][0-9]*)?" sum=${verdict#* sum=}"$ ]]
    fi || say "the kit's last line on $1 is not the verdict that it must be: $said"
}

# Says how many crates are proved, how long that has taken, and which are at work, by the files of the copy.
tell() {
    local names proved=(*.log) busy=(*.new) after=$((EPOCHSECONDS - begun))
    printf -v names '%s, ' "${busy[@]%.new}"
    after=$([ "$after" -lt 60 ] && echo "$after s" || echo "$((after / 60)) min")
    [ "${#busy[@]}" = 0 ] || after+=" (${names%, } at work)"
    say "${#proved[@]} of ${#order[@]} crates proved after $after" 2>&3 || true
}

# Has the kit's checker prove the crate $1, which gives way to $2 others, and compile it. It is called as `rt ci` calls it: what is
# above a library loads its statements, and not its proofs. The crate that gives way to none, from which the longest chain leads
# up, has several processes.
check_crate() {
    local use made=$PWD/$1 rattle=(nice -n "$(($2 < 4 ? $2 : 4))" "$kit/bin/rattle" build --crate-name "$1")
    local words=(--extern "std=$kit/rlibs/std.rlib")
    for use in ${uses[$1]}; do words+=(--extern "$use=$([ -d "crates/$use" ] && echo "$PWD" || echo "$kit/rlibs")/$use.rlib"); done
    words+=(-L "dependency=$PWD" -L "dependency=$kit/rlibs" --links "$1=" --jobs "$(($2 == 0 ? jobs : 1))")
    words+=(--antt-project "$kit/rattle/logic/antt-project.json" --logic-built "$kit/logic_built")
    cd -- "crates/$1" && if [ "$1" = pdb_cli ]; then
        "${rattle[@]}" src/main.rt "${words[@]}" --toolchain "$kit/toolchain" --backend llvm -o "$made.o"
    else
        "${rattle[@]}" src/lib.rt "${words[@]}" --statements -o "$made.rlib"
    fi
}

# Proves the crate $1, which gives way to $2 others, and saves the library, or links the program. Where it isn't proved, this ends
# the build.
prove() {
    local status=0
    tell
    (check_crate "$@") >>"$1.new" 2>&1 || status=$?
    cat -- "$1.new"
    if [ "$status" = 1 ] && grep -q '^logic=not-proved' "$1.new" || { [ "$status" = 0 ] && ! is_allowed "$1" "$1.new"; }; then
        echo "refused: $1"
        status=1
    fi
    if [ "$status" = 0 ] && [ "$1" = pdb_cli ]; then
        "$kit/bin/rattle-link" --target x86_64-unknown-linux-gnu --toolchain "$kit/toolchain" -o "$1.out" "$1.o" "$kit"/c/lib{os,libc}_c.a ||
            status=$?
    fi
    [ "$status" = 0 ] || kill -TERM 0
    [ "$1" = pdb_cli ] || save "$1"
    mv -- "$1.new" "$1.log"
}

# Saves what the last check of the library $1 said and made, for later builds, if there is room.
save() {
    local sum
    tar --format=posix -cf "$saved/$1.new" "$1".{rlib,new} && sum=$(sha256sum <"$saved/$1.new") &&
        mv -f -- "$saved/$1.new" "$saved/$1.tar" && echo "${sums[$1]} ${sum%% *}" >"$saved/$1.sum" || true
}

# Brings back what is saved of the library $1, if all that it uses is back, and it was made here, by this kit, of this crate and
# those below it as they are, and is as it was made.
bring_back() {
    local use was made
    for use in ${uses[$1]}; do [ ! -d "crates/$use" ] || [ -e "$use.log" ] || return; done
    { read -r was made <"$saved/$1.sum" && [ "$was" = "${sums[$1]}" ] && has_digest "$saved/$1.tar" "$made" &&
        tar -xf "$saved/$1.tar" "$1".{rlib,new} && is_allowed "$1" "$1.new" && mv -- "$1.new" "$1.log"; } 2>/dev/null || rm -rf -- "$1".{new,rlib}
}

# Notes how many lines of source stand from the crate $1 up to the program, by the longest chain, where $2 are above it in $3
# crates. (None is of more than all crates, but in a ring.)
find_chains() {
    local use lines=$(($2 + sizes[$1] + 1))
    [ "$lines" -gt "${waiting[$1]-0}" ] && [ "$3" -lt "${#uses[@]}" ] || return 0
    waiting[$1]=$lines
    for use in ${uses[$1]}; do [ -z "${uses[$use]+listed}" ] || find_chains "$use" "$lines" "$(($3 + 1))"; done
}

# Sets `order` to the crates of the program, first those from which the longest chains lead up, and `sums` to digests of all that
# their checks read; and brings back what is saved.
find_order() {
    local name use
    local -A sizes=() waiting=()
    for name in "${crates[@]}"; do sizes[$name]=$(cat -- /dev/null "crates/$name/src/"*.rt | wc -l); done
    find_chains pdb_cli 0 0
    mapfile -t order < <(for name in "${!waiting[@]}"; do echo "${waiting[$name]} $name"; done | sort -rn | cut -d ' ' -f 2)
    for name in "${order[@]}"; do
        sums[$name]=$(find tools/build/build.sh "crates/$name" -type f -exec sha256sum -- {} + | LC_ALL=C sort)$(folder)$by${uses[$name]}
        for use in ${uses[$name]}; do sums[$name]+=${sums[$use]-}; done
        sums[$name]=$(sha256sum <<<"${sums[$name]}") && sums[$name]=${sums[$name]%% *}
        [ "$name" = pdb_cli ] || bring_back "$name"
    done
}

# Sets `at` to the place in `order` of the first crate that isn't at work or proved, while all that it uses is proved.
find_ready() {
    local use
    for at in "${!order[@]}"; do
        [ ! -e "${order[at]}.new" ] && [ ! -e "${order[at]}.log" ] || continue
        for use in ${uses[${order[at]}]}; do [ ! -d "crates/$use" ] || [ -e "$use.log" ] || continue 2; done
        return
    done
    return 1
}

# Proves all crates, `most` at once, each once those that it uses are proved. Each that ends, and each minute, writes a line to the
# pipe `events`.
prove_all() {
    local name at events busy proved
    local -A pids=()
    exec {events}<> <(:) # (a pipe)
    while sleep 60; do echo >&"$events"; done &
    while [ ! -e pdb_cli.log ]; do
        busy=(*.new) proved=(*.log)
        if [ "${#busy[@]}" -lt "$most" ] && find_ready; then
            name=${order[at]}
            echo "== $name" >"$name.new"
            { prove "$name" "$((at > ${#proved[@]} ? at - ${#proved[@]} : 0))" && echo "$name" >&"$events"; } &
            pids[$name]=$!
            continue
        fi
        [ "${#busy[@]}" != 0 ] || say 'crates.txt has a ring' || return
        read -r -u "$events" name && [ -n "$name" ] || tell
        for name in "${busy[@]%.new}"; do [ -e "$name.log" ] || kill -0 "${pids[$name]}" || return; done
    done
}

# Sets `most` to how many crates are proved at once, and `jobs` to how many processes the check of one has at most. A check
# takes some 1,500 MB, and 700 for each further process; a container may have less than the machine.
find_room() {
    local room limit held
    most=$(nproc) || most=1
    jobs=$((most < 4 ? most : 4))
    { read -r room && read -r limit && read -r held; } < <(sed -n 's/^MemAvailable: *\([0-9]*\) kB$/\1/p; t; /^\([0-9]*\|max\)$/p' \
        /proc/meminfo /sys/fs/cgroup/memory.{max,current} 2>/dev/null)
    [[ ${limit:-max} == max ]] || room=$((limit / 1024 - held / 1024 < room ? limit / 1024 - held / 1024 : room))
    room=$(((room / 1205 - 1500 - 700 * (jobs - 1)) / 1500 + 1))
    most=$((room < 1 ? 1 : room < most ? room : most))
}

# Whether HANDLES allows what the program takes, as the verdict has it.
has_handles() {
    local name taken=${verdict#* main=}
    taken=${taken%% *}
    for name in ${taken//+/ }; do
        [[ $(<HANDLES) =~ " $name"[,.] ]] || say "HANDLES does not allow $name, which the program takes" || return
    done
}

# Copies the sources to the folder `copy`, proves the crates there, $1 at once if that is given, and keeps the program. The build
# is the same in each environment: none may allow code in C, or choose what compiles.
make_program() {
    local of most jobs order=() saved=$kept/proved
    local -A sums=()
    unset RT_ALLOW_C RT_BACKEND
    (cd -P -- "$root/" && find_paths && cp -RH --no-preserve=mode --parents -- crates.txt tools/build "${paths[@]}" "$copy") &&
        of=$(digest "$copy") && cd -- "$copy" && export TMPDIR=$PWD && has_handles && read_crates && mkdir -p -- "$saved" || return
    find_room
    most=${1:-$most}
    find_order
    cat -- /dev/null *.log
    prove_all && install_program pdb_cli.out "${of% *}" && tell
}

# Ends the group of processes that it is in, and removes the copy, once the launcher has closed `alive` or is no more.
watch() {
    local end
    trap '' TERM
    exec {end}<"/dev/fd/$alive" {alive}>&- {lock}>&-
    read -r -u "$end"
    kill -TERM 0
    for _ in {1..50}; do rm -rf -- "$copy" && break || sleep 0.2; done
}

# Proves and builds the program, with nothing that is saved where $1 is `anew`, at most twice: the second time one crate after
# the other, as may help where memory was short.
build() {
    local kit by copy alive most status refused begun=$EPOCHSECONDS
    { : >&2; } 2>/dev/null || exec 2>/dev/null
    find_kit && by=$(name_kit) || return
    { : >"$log"; } 2>/dev/null || say "$log cannot be written" || return
    [ "${1-}" != anew ] || rm -rf -- "$kept/proved"
    say "proving and building the program, half an hour the first time; the log is $log"
    for most in '' 1; do
        [ -z "$most" ] || say "the crates are not proved side by side, and $log says why: one after the other now"
        copy=$(mktemp -d) || break
        exec {alive}<> <(:)
        set -m
        { watch & exec {alive}>&- && make_program "$most"; } </dev/null 3>&2 >>"$log" 2>&1 &
        set +m && wait "$!"; status=$?
        exec {alive}>&-
        [ "$status" != 0 ] || return 0
        refused=$(sed -n 's/^refused: //p' "$log")
        [ -z "$refused" ] || break
    done
    tail -n 20 -- "$log" >&2
    say "the program is not built${refused:+: $refused is not proved}; $log has all that was said"
}

# Has the program proved and built of the sources as they are; where $1 is `anew`, also if it is, and from nothing.
provide() {
    local kit lock left
    find_kit || say 'rt, the command of the Rattle kit, is not on the PATH: install the kit that README.md names' || return
    take_lock || return
    for left in 3 2 1 0; do
        look || break
        if [ "$left.${1-}" != 3.anew ] && is_proved; then
            exec {lock}>&-
            keep_list
            return
        fi
        [ "$left" = 3 ] || say 'a source has changed meanwhile'
        [ "$left" != 0 ] || say 'the program is not built: the sources change each time' || break
        build "${1-}" || break
        fresh=', at this start'
    done
    exec {lock}>&-
    return 1
}

# Says whether the program with the digest $1, made of the sources with the digest $2 by the kit $3, is that of dist/. The status
# is 1 where it isn't, and 2 where dist/ has none that was made of these sources.
compare() {
    local way place own of by packed needs unpacked
    [ -e "$release" ] || say 'dist/ has no program' || return 2
    read_record "$release" || say 'dist/RELEASE is no record of a program' || return
    [ "$of" = "$2" ] || say 'dist/ was made of other sources than these' || return 2
    has_digest "$root/dist/pdb_cli.gz" "$packed" || say 'dist/pdb_cli.gz is not what dist/RELEASE names' || return
    unpacked=$(gzip -dc <"$root/dist/pdb_cli.gz" | sha256sum)
    if [ "$own $unpacked" = "$1 $1  -" ]; then
        echo 'the program is that of dist/, byte for byte'
        return
    fi
    [ "$by" = "$3" ] || say "dist/ was made with the kit $by, and this is the kit $3"
    say "the program is not that of dist/: its digest is $1, and that of dist/ ${unpacked%% *}"
}

# Proves and builds the program from nothing, and says whether it is that of dist/: status 1 where it isn't.
prove_here() {
    check_out && provide anew || return 125
    echo "proved here, with the kit $by"
    compare "$own" "$of" "$by" || return 1
}
