# For the scripts here: which programs are built of the sources that stand here, and which of those are proved. Wants $home, the
# repository.
# shellcheck shell=bash
# shellcheck disable=SC2154
out=$home/crates/gup/out
program=$out/gup
orders=$home/crates/gup_orders/out/gup_orders
pictures=$home/crates/gup_picture/out/gup_picture
record=$out/gup.sources
unproved=$home/out/unproved

# The kit's command.
kit() { "$(type -P rt || echo /opt/rattle/bin/rt)" "$@"; }

# One checksum of all that the programs are made and proved from.
sources() {
    (
        cd "$home" || exit
        find crates.txt HANDLES crates/*/{src,specs,proofs} -type f -print0 2>/dev/null |
            LC_ALL=C sort -z | xargs -0 sha256sum
    ) </dev/null | sha256sum
}

# Writes the record $2 of programs that were built from the sources with the checksum $1: these programs are $3 and on. Its time is
# one second before the moment at which they were looked at.
note() {
    local looked=$EPOCHSECONDS built
    for built in "${@:3}"; do [[ -x $built ]] || return 1; done
    [[ $(sources) == "$1" ]] || return 1
    printf '%s\n' "$1" "$(cat "${@:3}" | sha256sum)" "$(kit version </dev/null)" >"$2" && touch -d "@$((looked - 1))" "$2"
}

# Whether the programs $2 and on are the very ones that the record $1 tells of, built from the sources that stand here now. A
# program that another command left has no record, or not this checksum. A file that was changed, brought or taken away since the
# record was written shows by a time of change that is later, its own or its folder's; only then the checksums are taken again.
is_current() {
    local newer folder built looked=$EPOCHSECONDS lines
    for built in "${@:2}"; do [[ -x $built ]] || return 1; done
    [[ -r $1 ]] || return 1
    newer=$(cd "$home" && find crates.txt HANDLES crates/*/{src,specs,proofs} "${@:2}" -newercm "$1" -print -quit 2>&1)
    for folder in "$home"/crates "$home"/crates/*/; do
        [[ ! $folder -nt $1 ]] || newer=$folder
    done
    [[ -n $newer ]] || return 0
    mapfile -t lines <"$1"
    [[ ${#lines[@]} == 3 && ${lines[0]} == "$(sources)" && ${lines[1]} == "$(cat "${@:2}" | sha256sum)" ]] || return 1
    touch -d "@$((looked - 1))" "$1" 2>/dev/null || true # else the next run takes them again
}

# The same of the proved programs.
write_record() { note "$1" "$record" "$program" "$orders" "$pictures"; }
is_proved() { is_current "$record" "$program" "$orders" "$pictures"; }

# The commit that stands here, and whether files of the program differ from it.
commit() {
    local at
    at=$(git -C "$home" rev-parse --short HEAD 2>/dev/null) || { echo "no commit known"; return; }
    [[ -z $(git -C "$home" status --porcelain -- crates crates.txt HANDLES gup 2>/dev/null) ]] || at+=" with changes"
    echo "commit $at"
}
