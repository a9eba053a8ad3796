# What `./writepath` looks at before a run that resumes a log, and what a build that isn't proved refuses.

# Whether one of the words after the first is among the others.
has_word() { [[ " ${*:2} " == *" $1 "* ]]; }

# The mode, the number and how many logs lawful words name, or nothing. A number may have a plus and zeros before it.
read_words() {
    while (($#)); do
        case $1 in
        --mode) mode=$2 ;;
        --mode=*) mode=${1#*=} ;;
        --number) number=$2 ;;
        --number=*) number=${1#*=} ;;
        --logs) logs=$2 ;;
        --logs=*) logs=${1#*=} ;;
        esac
        shift
    done
    [[ $number =~ ^\+?0*([0-9]+)$ ]] && number=${BASH_REMATCH[1]}
    [[ $logs =~ ^\+?0*([0-9]{1,2})$ ]] && logs=${BASH_REMATCH[1]} || logs=
}

# The path of a log by the path of the first one, and its number, counted from 1.
path_of() {
    if (($2 == 1)); then printf '%s\n' "$1"; else printf '%s.%d\n' "$1" "$2"; fi
}

# How many logs the words of a call name, into `log_count`.
count_logs() {
    local mode='' number='' logs=''
    [[ ${2-} != @(run|recover) ]] || read_words "${@:3}"
    log_count=${logs:-1}
    ((log_count > 0 && log_count <= 16)) || log_count=1
}

# How many bytes the log has, and the number in its first header, or nothing: where the kind there is 5 to 8 it comes
# after the checksum, the length and the kind.
read_header() {
    local -a header
    size=$(stat -L -c %s -- "$file") || return
    read -r -a header < <(od -An -v -tu1 -N 11 -- "$file")
    ((${#header[@]} == 11 && header[6] >= 5 && header[6] <= 8)) || return
    there=$((header[7] | header[8] << 8 | header[9] << 16 | header[10] << 24))
    ((there > 0)) || there=
}

# Where and why the recovery of the log ends, by the program's own `recover`: `outcome` is its status, `first` and `line`
# the first and the last line of its text, and `at` and `reason` what the last one says. No more of the text is kept,
# however long it is.
read_end() {
    local -a lines
    mapfile -t lines < <(
        "$program" "$1" recover --mode tail ${number:+--number "$number"} </dev/null |
            { IFS= read -r line && printf '%s\n' "$line"; tail -c 200; }
        echo "${PIPESTATUS[0]}"
    )
    outcome=${lines[-1]} first=${lines[0]} line=
    ((${#lines[@]} > 1)) && line=${lines[-2]}
    at=${line#* } reason=${line#* * }
    at=${at%% *}
}

# Refuses to resume the log, with the line and the status of a mode that doesn't accept its end.
refuse() {
    local sentence
    echo "damage $at $reason" 2>/dev/null
    for sentence; do say "$sentence"; done
    exit 8
}

# Looks what `run --resume` would truncate, since nobody can look at that afterwards, and ends this script if a mode
# should be named for it. Words that the program refuses, and what isn't a file with bytes that may be read, are left to
# the program. `added` is what the run gets besides: where no mode is named it is `tail`, so that what was found here
# is found once more by the run itself, which has the file's lock.
look_first() {
    local mode='' number='' logs='' size there='' is_other='' outcome first line at reason
    [[ ${2-} == run ]] && has_word --resume "${@:3}" || return
    # A text without a client is no script, and that is found before anybody looks at the log.
    "$program" "$@" </dev/null >/dev/null
    (($? == 1)) && return
    read_words "${@:3}"
    [[ $mode ]] || added=(--mode tail)
    [[ -f $file && -r $file && -s $file ]] || return
    read_header
    [[ $there && $there != "$number" ]] && is_other=1
    [[ $mode && ! $is_other ]] && return
    read_end "$1"
    if [[ $outcome != @(0|8) || $line != @(end|damage)' '* ]]; then
        say 'nothing was changed: before the run the log was looked at, and that failed'
        [[ $line ]] && echo "$line"
        status=$outcome
        explain "$@"
        exit "$status"
    fi
    if [[ $is_other && $at == 0 ]] && ((there > ${number:-0})); then
        refuse "nothing was changed: this log has the number $there: --number $there" \
            "read with${number:+ the number }${number:-out one}, nothing of its $size bytes would be kept"
    fi
    [[ $mode == point ]] && return
    if [[ $is_other && $at == 0 ]]; then
        refuse "nothing was changed: the first header has the number $there; nothing of the log $number is here" \
            "either $number isn't its number, or nothing was written to it yet" \
            "\`--mode point\` truncates all $size bytes, and begins the log $number"
    fi
    [[ $mode ]] && return
    if [[ $outcome == 8 || $first == 'groups 0' ]]; then
        line="$pages/RECOVERY.md, heading \`${reason%% *}\`, says what they may be"
        [[ $number && "$at $reason" == '0 badtype '[1-4] ]] && line='it has no number: leave `--number` out'
        refuse "nothing was changed: what comes at the byte $at of this log isn't read: $reason" \
            "at least $((size - at)) of its $size bytes would be truncated; $line" "$(what_then)"
    fi
}

# What to do with a log that isn't read on at `at` for this reason. A compressed one, and tags of operations that RocksDB
# writes and recovery doesn't apply, are no damage: then it isn't said how to truncate them.
what_then() {
    if [[ "$at $reason" == '0 badtype 9' || $reason == 'tag '@(2|6|9|1[0-9]|2[1-5]) ]]; then
        echo 'that is no damage, if the byte is right: RocksDB reads such a log, and it is not resumed here'
    else
        echo '`--mode point` truncates them, and resumes the log'
    fi
}

# Ends a call of a build that isn't proved, where it would change a file that has bytes.
refuse_unproved() {
    local at path
    is_unproved && [[ ${2-} == run ]] || return 0
    if has_word --resume "${@:3}"; then
        say "nothing was changed: \`run --resume\` changes a log that is there, and $(why_unproved)"
        exit 126
    fi
    [[ " ${*:3} " == *' --number'[' =']* ]] || return 0
    for ((at = 1; at <= log_count; at++)); do
        path=$(path_of "$file" $at)
        [[ -f $path && -s $path ]] || continue
        path=$(path_of "$1" $at)
        say "nothing was changed: \`run --number\` writes over $path, which has bytes, and $(why_unproved)"
        exit 126
    done
}
