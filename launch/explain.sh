# What `./writepath` says on standard error after the program, of its status.

# Why a log's file failed, as far as it can be seen from here, or nothing. It is the log with this number.
why_file() {
    local folder file=$file
    file=$(path_of "$file" "$3")
    folder=$(dirname -- "$(readlink -m -- "$file")")
    if [[ ! $1 ]]; then
        echo 'the path is empty'
    elif [[ -d $file ]]; then
        echo 'this is a folder'
    elif [[ -p $file ]]; then
        echo 'this is a pipe: write what comes by it to a file first'
    elif [[ -S $file || -b $file || -c $file ]]; then
        echo 'this is a socket or a device, and no file'
    elif [[ ! -d $folder || ! -x $folder ]]; then
        echo "there is no folder $folder, or it may not be entered"
    elif [[ ! -e $file && $2 == recover ]] && (($3 > 1)); then
        # It was read as an empty log.
        return
    elif [[ -L $file && ! -e $file ]]; then
        echo "the link leads to $(readlink -m -- "$file"), and no file is there"
    elif [[ ! -e $file && ($2 == recover || $is_resume) ]]; then
        echo 'no such file'
    elif [[ ! -e $file ]]; then
        echo "no file can be made in $folder"
    elif [[ ! -r $file && ($2 == recover || $is_resume) ]]; then
        echo 'this file may not be read'
    elif [[ ! -w $file && $2 != recover ]]; then
        echo 'this file may not be written'
    elif [[ $2 != recover ]] && ! is_free; then
        echo 'another program has the lock of this file, and writes to it'
    elif [[ $2 == recover ]] && (($(stat -L -c %s -- "$file") < bytes_before[$3])); then
        echo 'this file has fewer bytes than before: another program has truncated it'
    fi 2>/dev/null
}

# Why the disk failed where it isn't a file's fault, as far as it can be seen from here.
why_disk() {
    local folder left limit
    folder=$(dirname -- "$(readlink -m -- "$file")")
    if [[ $2 != recover && ! -r $folder ]]; then
        echo "the folder $folder may not be read, so nothing makes the log's entry there safe"
    elif [[ $2 != recover ]] && limit=$(ulimit -f) && [[ $limit != unlimited ]]; then
        echo "no file may have more than $limit KiB here (\`ulimit -f\`)"
    elif [[ $2 != recover ]] && left=$(df -Pk -- "$folder" | awk 'NR == 2 { print $4 }') && ((left < 32768)); then
        echo "the disk of $folder has only $left KiB left"
    else
        echo 'why, the messages of the system may say (`dmesg`)'
    fi 2>/dev/null
}

# Whether nobody has the lock of a file. To ask for it is to have it for a moment, so it is asked only after a fault.
is_free() { ! command -v flock >/dev/null || (exec 9<"$file" && flock -n 9); }

# Why a standard stream failed, by its number. A stream that doesn't block has that among its flags.
why_stream() {
    local flags
    flags=$(sed -n 's/^flags:[[:space:]]*//p' "/proc/$$/fdinfo/$1" 2>/dev/null)
    if [[ $closed == *$1* ]]; then
        echo 'it is closed'
    elif [[ -d /dev/fd/$1 ]]; then
        echo 'it is a folder'
    elif ((${flags:-0} & 04000)); then
        echo 'it is one that nobody waits for (O_NONBLOCK): take a file in its place'
    elif (($1 == 0)); then
        echo 'its device has failed'
    else
        echo 'its device has failed or is full, or who read it has ended'
    fi
}

# Says of each of several logs which file it is, and how many bytes that has now. The program's text can't tell that a
# log is missing between others, or that there are more of them.
tell_files() {
    local at name size last=1
    for ((at = 2; at <= log_count; at++)); do
        [[ ! -s $(path_of "$file" $at) ]] || last=$at
    done
    for ((at = 1; at <= last; at++)); do
        name=$(path_of "$1" $at)
        size=$(stat -L -c %s -- "$(path_of "$file" $at)" 2>/dev/null)
        if [[ ! $size || ($size == 0 && $at -lt $last) ]]; then
            say "log $at: $name $([[ $size ]] && echo 'is empty' || echo "isn't there"), but log $last has bytes:" \
                'a part of the history may be missing'
        else
            say "log $at: $name, $size bytes"
        fi
    done
    if ((last + 1 == log_count)); then
        say "log $log_count: no file with bytes"
    elif ((last < log_count)); then
        say "log $((last + 1)) to $log_count: no file with bytes"
    fi
    for ((at = log_count + 1; at <= 16; at++)); do
        [[ ! -s $(path_of "$file" $at) ]] || say "$(path_of "$1" $at) wasn't read: \`--logs $at\` reads it too"
    done
}

# Says what the status means for a person, after the program's own text. The usual end of `| head` needs no word.
explain() {
    local is_resume='' reason='' at page="$pages/FORMATS.md, heading Exit statuses, has more"
    has_word --resume "${@:3}" && is_resume=1
    case $status in
    0) [[ ${2-} != recover || $log_count == 1 ]] || tell_files "$@" ;;
    1)
        if is_command "${1-}" && ! is_command "${2-}"; then
            say "the log comes before the command: $called$(printf ' %q' "${2:-LOG}" "$1" "${@:3}")"
            usage "$1" >&2
        else
            usage "${2-}" >&2
        fi
        say "\`$called --help\` says what each word means"
        ;;
    2) say "this line of the text, or all of it (line 0), is no script: $pages/FORMATS.md, heading Script" ;;
    3)
        for ((at = 1; at <= log_count; at++)); do
            reason=$(why_file "$1" "$2" $at)
            [[ ! $reason ]] || break
        done
        if [[ $reason ]]; then
            say "$([[ $1 ]] && path_of "$1" $at || echo 'the log'): $reason"
        else
            reason=$(why_disk "$@")
            say "$1: $reason"
        fi
        # For these reasons the log was opened, and commits were answered.
        [[ $2 == @(run|gen) && $reason == @('the disk of'|'no file may have'|'the folder '*' may not be read'|'why,')* ]] &&
            say "of the commits that were answered \`no logfault\` those of one group may be in the log all the same:" \
                "look by \`recover\` before you commit them again. $page"
        ;;
    4) say "standard input failed: $(why_stream 0). Nothing was done. $page" ;;
    5)
        [[ $2 != @(run|gen) && -p /dev/fd/1 && $(why_stream 1) == *ended ]] && return
        say "standard output failed, so the text isn't whole: $(why_stream 1). $page"
        [[ $2 == @(run|gen) ]] && say 'the run itself was made: `recover` shows what its log has'
        ;;
    6)
        say "out of memory; $pages/FORMATS.md, heading Limits, says what a call takes"
        [[ $2 == @(run|gen) ]] && say 'the run may have been made: `recover` shows what its log has'
        ;;
    7)
        for ((at = 1; at <= log_count; at++)); do [[ ! -s $(path_of "$file" $at) ]] || break; done
        if ((log_count == 1 || at > log_count)); then
            say "the log has bytes: name a new one, or see \`run --resume\` and \`run --number\` in \`$called --help\`"
        else
            say "$(path_of "$1" $at) has bytes: a run over $log_count logs wants each of their files new or empty"
        fi
        ;;
    8)
        say "this mode doesn't accept that the log ends so. Nothing was changed. $pages/RECOVERY.md has each reason"
        [[ $2 != recover || $log_count == 1 ]] || tell_files "$@"
        ;;
    9) say 'the log has a key of a column family with this number, and a run has those up to 15. Nothing was changed' ;;
    esac
}

# The lines of usage: of each command that is named, with its words.
usage() {
    local name
    for name; do
        printf 'usage: %s LOG ' "$called"
        case $name in
        run)
            echo 'run [--resume] [--mode point|tail|absolute] [--number N] [--last N] [--batch-bytes N]'
            echo '           [--group-bytes N] [--pipelined] [--table one|shards] [--shards N] [--families N]'
            echo '           [--logs N] [--log-bytes N]'
            ;;
        recover) echo 'recover [--number N] [--mode point|tail|absolute] [--logs N]' ;;
        gen) echo 'gen [--pipelined] [--table one|shards] [--shards N] [--families N] SEED CLIENTS BATCHES' ;;
        replay) echo 'replay [--pipelined] [--last N] [--batch-bytes N] [--group-bytes N] [--families N]' ;;
        *) echo 'run|gen|recover|replay [OPTION [VALUE]].. [NUMBER]..' ;;
        esac
    done
}

is_command() { [[ $1 == @(run|gen|recover|replay) ]]; }
