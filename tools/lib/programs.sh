# What tools/launch, ./prove, ./check and tools/try-packages share: which program, or which archive of the crate wokhleas, stands
# in out/, and of which sources it is.
# `top` is the repository's top.
#
# shellcheck shell=bash

# crates_below NAME..: the lines of crates.txt of these crates and of those of the repository that they stand on.
crates_below() {
    awk -v wanted="$*" '
        { sub(/#.*/, "") }
        match($0, /^[a-z0-9_]+/) { name = substr($0, 1, RLENGTH); line[name] = $0; rest[name] = $0; sub(/^[^:]*:?/, "", rest[name]) }
        END {
            count = split(wanted, next_one, " ")
            for (at = 1; at <= count; at++) {
                name = next_one[at]
                if (!(name in line) || seen[name]++) continue
                print line[name]
                more = split(rest[name], below, " ")
                for (it = 1; it <= more; it++) next_one[++count] = below[it]
            }
        }' "$top/crates.txt"
}

# names_of: the names at the head of such lines.
names_of() { sed 's/[: ].*//'; }

# digest_of_sources NAME: of all that the program of this name is made from.
digest_of_sources() {
    local lines folders
    lines=$(crates_below "$1") || return
    mapfile -t folders < <(names_of <<<"$lines" | LC_ALL=C sort | sed 's,^,crates/,')
    (
        set -o pipefail
        cd "$top" || exit
        echo "$lines" | LC_ALL=C sort | sha256sum &&
            find HANDLES "${folders[@]}" -type f -not -path '*/out/*' -not -path '*/must-fail/*' -not -path '*/edits/*' -print0 |
            LC_ALL=C sort -z | xargs -0 sha256sum
    ) | sha256sum
}

# The line that `rt version` prints, from the file that has it; nothing where there is no toolchain.
toolchain_name() {
    local rt
    rt=$(command -v rt) || return
    cat "$(dirname "$(readlink -f "$rt")")/../KIT-ID" 2>/dev/null || rt version
}

# file_of NAME: the file that is built of a crate: a program, or the archive of the C library.
file_of() {
    if [ "$1" = wokhleas ]; then echo libwokhleas.a; else echo "$1"; fi
}

# is_current NAME DIGEST TOOLCHAIN: whether out/ has the program, or the archive, of these sources, by this toolchain where there is one.
is_current() {
    local origin=$top/out/$1.origin
    [ -s "$top/out/$(file_of "$1")" ] && [ -r "$origin" ] && [ "$(sed -n 1p "$origin")" = "$2" ] &&
        { [ -z "$3" ] || [ "$(sed -n 2p "$origin")" = "$3" ]; }
}

# keep_built NAME TOP DIGEST TOOLCHAIN: puts what was proved and built from these sources, in a repository, into out/.
keep_built() {
    local kept origin=$top/out/$1.origin
    kept=$top/out/$(file_of "$1")
    mkdir -p "$top/out" && rm -f "$origin" && cp "$2/crates/$1/out/$(file_of "$1")" "$kept.new" && mv "$kept.new" "$kept" &&
        printf '%s\n' "$3" "$4" >"$origin"
}
