# Of what sources the programs and the library were built, and how. A stamp next to what was built has that, by a sum of
# the contents: so a file that was only touched, or checked out anew, changes nothing. `NAME.proved` is written by
# `./prove`, by `library/build --proved` and after the `rt ci` of `.ci/run`. What `rt run` or `rt ci` leaves otherwise
# has none, and isn't taken for proved: nobody looked whether a source changed while that ran.
#
# To sum up the contents takes a tenth of a second and more. So a list of sizes and times is kept too, as git does it:
# where that is the same, the contents weren't changed.

# The lines of crates.txt for these crates and those that they are built of, each after those below it.
lines_of() {
    awk -v tops="$*" '
        function put(name,   i, n, below) {
            if (!(name in needs) || name in placed) return
            placed[name]
            n = split(needs[name], below, " ")
            for (i = 1; i <= n; i++) put(below[i])
            print head[name] ":" needs[name]
        }
        { sub(/#.*/, "") }
        /:/ { name = $1; sub(/:.*/, "", name); at = index($0, ":")
              head[name] = substr($0, 1, at - 1); needs[name] = substr($0, at + 1) }
        END { n = split(tops, top, " "); for (i = 1; i <= n; i++) put(top[i]) }' "$tree/crates.txt"
}

# What is built of this crate in this way: `built`, its files, `stamp`, and `extras`, which go into it besides the
# crates. `sources` are the folders of the crates, in `tree`. All paths begin at the top folder.
name_files() {
    extras=()
    if [[ $1 == wolzenn_c ]]; then
        built=(library/out/libwolzenn.a library/out/libwolzenn.so) stamp=library/out/built
        extras=(library/{heap.c,texts.c,wolzenn.h,wolzenn.map} launch/library.sh)
    elif [[ $2 == proved ]]; then
        built=("crates/$1/out/$1") stamp=crates/$1/out/$1.proved
    else
        built=("launch/out/$1") stamp=launch/out/$1.unproved
    fi
    stamp=$root/$stamp
    [[ $2 == proved ]] || extras+=(launch/unproved)
}

name_sources() {
    local name
    sources=(HANDLES)
    while read -r name; do
        name=${name%%[ :]*}
        sources+=("crates/$name/src" "crates/$name/specs" "crates/$name/proofs")
    done < <(lines_of "$1")
}

# The kit's own text of itself, or nothing where there is no `rt`.
find_kit() {
    local tool
    kit_id=
    tool=$(type -P rt) && tool=$(readlink -f -- "$tool") || return
    { read -r kit_id <"${tool%/*/*}/KIT-ID"; } 2>/dev/null
    [[ $kit_id ]] || kit_id=$(rt version 2>/dev/null) || kit_id=unknown
}

# The sums of all files in these places, in a folder.
sums_of() { (cd "$1" && shift && find -H "$@" -type f -print0 | LC_ALL=C sort -z | xargs -0 -r sha256sum) 2>/dev/null; }

# The sum of all contents that this crate is built of.
sum_of_sources() {
    { lines_of "$1"; sums_of "$tree" "${sources[@]}"; sums_of "$root" "${extras[@]}" /dev/null; } |
        sha256sum | cut -d ' ' -f 1
}

sum_of_built() { (cd "$root" && sha256sum "${built[@]}") | sha256sum | cut -d ' ' -f 1; }

# The sizes and the times of all files in these places, in a folder. Nobody can set the time of the last change.
times_of() { (cd "$1" && shift && echo "$*" && find -H "$@" -type f -printf '%s %T@ %C@ %p\n') 2>/dev/null; }

# Whether what was built of a crate in this way is there, and of the sources as they are.
is_current() {
    local tree=$root built stamp extras sources began now
    local -a lines places
    name_files "$1" "$2"
    [[ -s $stamp && -s $root/${built[0]} ]] || return 1
    mapfile -t lines <"$stamp"
    [[ ${lines[0]} == "$2" ]] || return 1
    find_kit
    [[ ! $kit_id || ${lines[1]} == "kit $kit_id" ]] || return 1
    { read -r -a places <"$stamp.seen"; } 2>/dev/null
    ((${#places[@]} == 0)) || ! times_of "$root" "${places[@]}" | cmp -s - "$stamp.seen" || return 0
    name_sources "$1"
    began=$EPOCHSECONDS
    now=$(times_of "$root" crates.txt "${sources[@]}" "${extras[@]}" "${built[@]}")
    [[ ${lines[2]} == "sources $(sum_of_sources "$1")" && ${lines[3]} == "built $(sum_of_built)" ]] || return 1
    # A file that was changed in this second could change once more, and have the same times: then no list is kept.
    awk -v began="$began" 'NR > 1 && $3 > began - 1 { exit 1 }' <<<"$now" || return 0
    { printf '%s\n' "$now" >"$stamp.seen.$$" && mv -f -- "$stamp.seen.$$" "$stamp.seen"; } 2>/dev/null
    return 0
}

# What the sources of a crate are now, in one word. Taken before a build and after it, it tells whether one of them was
# changed meanwhile, also where it was changed back.
sources_now() {
    local built stamp extras sources
    name_files "$1" "$2"
    name_sources "$1"
    printf '%s-%s\n' "$(sum_of_sources "$1")" \
        "$({ times_of "$tree" "${sources[@]}"; times_of "$root" "${extras[@]}" /dev/null; } | sha256sum | cut -c 1-32)"
}

# Notes of what sources this was built, by the word that was taken before, and what was said of its proof.
put_stamp() {
    local built stamp extras
    name_files "$1" "$2"
    printf '%s\n' "$2" "kit $kit_id" "sources ${3%-*}" "built $(sum_of_built)" "${@:4}" >"$stamp.$$" &&
        mv -f -- "$stamp.$$" "$stamp" && rm -f -- "$stamp.seen"
}
