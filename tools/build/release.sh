#!/usr/bin/env bash
# Makes dist/ anew: packed, the program that was proved here of the sources as they are, and a record of it; the page that has it, which
# takes some minutes where page.sh has not made it yet; and the library for C. By the record the launcher takes the program in another
# checkout of these sources, and the gate compares its own with all three. By hand, behind the gate, and in the last commit of a piece of
# work alone, as the history grows by them each time.
#
#     .ci/run && tools/build/release.sh
#
# It takes no arguments, and proves nothing of the program: where none is kept, the status is 1. The library is proved once more.
set -uo pipefail
root=$(dirname "$(dirname "$(dirname "$(readlink -f "${BASH_SOURCE[0]}")")")")
# shellcheck source=tools/build/choose.sh
. "$root/tools/build/choose.sh" && check_out && look || exit 1
is_proved || say 'no program is kept that was proved here, of the sources as they are: .ci/run proves it, and ./pdb_cli prove-here' || exit
others=$(cd -- "$root" && find_paths && paths+=(crates.txt web tools/build/page.sh docs/results/korf_1985.claims crates/pdb_checker library) &&
    git status --porcelain -- "${paths[@]}") && [ -z "$others" ] ||
    say "git has other sources than these, so a clone has them: ${others//$'\n'/,}" || exit
"$root/tools/build/page.sh" || exit
needs=$(grep -ao 'GLIBC_[0-9.]*' "$program" | sort -V | tail -n 1)
rm -rf -- "$root/dist" && mkdir -- "$root/dist" && cp -- "$kept/page/pdb_cli.html" "$root/dist" &&
    gzip -9nc -- "$program" >"$root/dist/pdb_cli.gz" && packed=$(sha256sum <"$root/dist/pdb_cli.gz") && tee -- "$release" <<END || exit
program $own
sources $of
kit $by
packed ${packed%% *}
needs $needs
END
[ ! -d "$root/crates/pdb_checker" ] || "$root/tools/build/library.sh" "$root/dist"
