# Proves the programs and the library, by the merge gate's own command on a copy of their crates: it proves crates side
# by side, and takes those that an earlier run on this machine proved. It says how far it is and when it will be done. A
# call that is ended keeps the crates that were proved, and the next one goes on from there.

. "$launch/library.sh" || exit 126

# Makes a repository of these crates only, in a folder of its own, since a `crates.txt` below another one would stop
# the gate. It has no edits, and nothing that was built.
copy_sources() {
    local name it
    room=$(mktemp -d "${TMPDIR:-/tmp}/wolzenn-proof.XXXXXX") || return 1
    mkdir "$room/.git" && cp -- "$root/HANDLES" "$room/" && lines_of "$@" >"$room/crates.txt" || return 1
    while read -r name; do
        name=${name%%[ :]*}
        mkdir -p "$room/crates/$name" || return 1
        for it in "$root/crates/$name"/*; do
            [[ ${it##*/} == @(out|must-fail) ]] || cp -R -- "$it" "$room/crates/$name/" || return 1
        done
    done <"$room/crates.txt"
}

# Looks how far `rt ci` is, by the lines that it has written to the log. Sets `proved` and `count`, the crates that are
# proved and how many there are; `fresh`, how many were proved in this call; `refused`, one that isn't proved; and
# `seconds`, how long it may still take. That is reckoned by what bench/seconds has for the proof of each crate on one
# processor, by how many processors there are, by the longest chain of crates that wait for each other, and by how much
# longer those that were proved in this call have taken: processors differ by three times and more. The check of the
# library that follows takes as long as its crate's.
look() {
    local kind rest table=$root/bench/seconds
    [[ -r $table ]] || table=/dev/null
    proved=()
    while read -r kind rest; do
        case $kind in
        proved) proved+=("$rest") ;;
        *) read -r count seconds fresh refused <<<"$rest" ;;
        esac
    done < <(
        awk -v lanes="$(nproc)" -v elapsed=$((EPOCHSECONDS - begun)) '
        function takes(name) { return name in table ? table[name] : 60 }
        function most(a, b) { return a > b ? a : b }
        FILENAME ~ /crates\.txt$/ {
            split($0, line, ":"); split(line[1], word, " ")
            names[++count] = word[1]; needs[word[1]] = line[2]; next
        }
        FILENAME ~ /seconds$/ { if (!/^#/) table[$1] = $2; next }
        /^rt: [a-z0-9_]+ is kept: / { print "proved", $2; done[$2] }
        /^rt: [a-z0-9_]+ proved$/ { print "proved", $2; done[$2]; now[$2]; wanted += takes($2) / lanes; fresh++ }
        /^rt: [a-z0-9_]+ NOT PROVED/ && !refused { refused = $2 }
        END {
            # The chains of those that are left, and of those that were proved in this call: the first one of these has
            # had a processor of its own since the call began, while others are in hand.
            for (i = 1; i <= count; i++) {
                name = names[i]
                n = split(needs[name], below, " ")
                if (!(name in done)) {
                    left += takes(name) / lanes
                    for (j = 1; j <= n; j++) chain[name] = most(chain[name], chain[below[j]])
                    longest = most(longest, chain[name] += takes(name))
                } else if (name in now) {
                    for (j = 1; j <= n; j++) past[name] = most(past[name], past[below[j]])
                    wanted = most(wanted, past[name] += takes(name))
                }
            }
            # Some seconds of each call are no crate.
            slower = fresh ? (elapsed + 10) / (wanted + 10) : 1
            after = ("wolzenn_c" in needs) ? takes("wolzenn_c") : 0
            print "all", count, int((30 + after + most(left, longest)) * slower), fresh + 0, refused
        }' "$room/crates.txt" "$table" "$log"
    )
}

# Says how far the proof is: in one line that is written anew where standard error is a terminal, and else in a line for
# each crate that was proved since. It says nothing of the time until a crate was proved in this call, since only that
# tells how fast the processors are, and those that were kept take none.
tell() {
    local name end time
    printf -v end '%(%H:%M)T' $((EPOCHSECONDS + seconds + 30))
    time="; until about $end, some $((seconds / 60 + 1)) minutes"
    ((seconds < 60)) && time='; less than a minute to go'
    ((fresh == 0)) && time=
    if [[ -t 2 ]]; then
        printf '\r\e[K%s: %s of %s crates are proved%s' "$me" "${#proved[@]}" "$count" "$time" >&2
        is_open=1
        return
    fi
    for name in "${proved[@]:told}"; do
        told=$((told + 1))
        say "$name is proved, $told of $count$time"
    done
}

# What was said against a crate that is refused, or else the end of all that was said.
why() {
    [[ ! $is_open ]] || printf '\r\e[K' >&2
    is_open=
    if [[ $refused ]]; then
        sed -n "/^== $refused\$/,/^rt: $refused NOT PROVED/p" "$log" |
            grep -vE '^(fn|impl) .*: proved|^(statements|library|logic) |^by-macro: ' | head -n 40
        say "$refused was not proved"
    else
        tail -n 40 "$log"
    fi >&2
}

# What `rt ci` printed of this crate's proof, and of all, for those who get a release.
said_of() {
    sed -n "/^== $1\$/,/^rt: $1 proved\$/{/^logic=proved /s/^/said $1: /p}" "$2"
    sed -n -E "s/^rt: ($1) (is kept: .*)/said \1: \2/p; s/^([0-9]+ passed, 0 failed.*)/said rt ci: \1/p" "$2"
}

# Puts a program that was proved into its crate's folder, with its stamp.
keep_program() {
    local to=$root/crates/$1/out it
    mkdir -p -- "$to" && install -m 755 -- "$room/crates/$1/out/$1" "$to/$1.new" && mv -f -- "$to/$1.new" "$to/$1" ||
        return 1
    mapfile -t it < <(said_of "$1" "$log")
    put_stamp "$1" proved "${words[$1]}" "${it[@]}"
}

# Makes the library of the crate that was proved. `rt ci` leaves no archive of it, so it is checked once more, over the
# libraries below, whose stamps .ci/mark_proved writes.
keep_library() {
    local it
    has_library_tools || { say "so the library isn't built; its crates are proved"; return 0; }
    say 'all crates are proved; the library is built of them: one check more, of wolzenn_c'
    mapfile -t it < <(said_of wolzenn_c "$log")
    (cd "$room" && "$root/.ci/mark_proved" wolzenn_c) >>"$log" 2>&1
    begin "$room/crates/wolzenn_c" rt lib
    while runs "$job"; do wait "$job"; done
    end_job
    ((status == 0)) || return 1
    # heap.c and the other files of the folder are taken as they are now.
    words[wolzenn_c]=$(sources_now wolzenn_c proved)
    link_library proved "$room/crates/wolzenn_c/out/libwolzenn_c.a" "${words[wolzenn_c]}" "${it[@]}"
}

# Proves these crates, and leaves what is built of them. It ends at the first crate that is refused.
prove() {
    local begun=$EPOCHSECONDS told=0 count seconds fresh refused has_ended='' crate tree=$root
    local -a proved
    local -A words
    log=$made/proof-log
    at_signal='the crates that are proved are kept, and the next call goes on from there'
    : >"$log" || return 1
    catch_signals
    copy_sources "$@" 2>>"$log" || { rm -rf -- "$room"; why; return 1; }
    # What is proved is the copy.
    tree=$room
    for crate; do words[$crate]=$(sources_now "$crate" proved); done
    look
    is_known_kit || say "rt is that of $kit_id; this was proved by $kit"
    say "proves $count crates, once: from nothing $((seconds / 60 + 1)) minutes on fast processors, and three times" \
        'as long on slow ones; it says more when the first crate is proved'
    say "what it does is in $log"
    begin "$room" "$(readlink -f -- "$(type -P rt)")" ci
    until [[ $has_ended || $refused ]]; do
        for _ in 1 2 3 4; do ! runs "$job" || sleep 0.25; done
        runs "$job" || has_ended=1
        look
        tell
    done
    end_job
    ((status == 0)) && [[ ! $refused ]] || { why; rm -rf -- "$room"; return 1; }
    for crate; do
        if [[ $crate == wolzenn_c ]]; then keep_library; else keep_program "$crate"; fi ||
            { why; rm -rf -- "$room"; return 1; }
    done
    rm -rf -- "$room"
    room='' at_signal=''
}

# Proves those of these crates of which nothing proved is here, when no other call does.
prove_in_turn() {
    local crate it
    local -a left
    take_turn proof 'proves this here' || { say "$made can't be written"; return 1; }
    for crate; do is_current "$crate" proved || left+=("$crate"); done
    ((${#left[@]} == 0)) && return
    prove "${left[@]}" || return 1
    for crate in "${left[@]}"; do
        is_current "$crate" proved || it=1
    done
    [[ ! $it ]] || say 'a source changed meanwhile: what was proved is of the sources before that'
}
