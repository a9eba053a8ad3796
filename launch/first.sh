# The first call of a program: it is built of the sources as they are, without a proof, which takes a minute. Where that
# can't be done here it is proved, as `./prove` does it.

# Starts a command in a folder, in a process group of its own, so that a signal to the group ends it and what it has
# started. What it prints goes to the log. A loop, in a group of its own too, ends it where this script was killed, and
# removes `room`; the loop has the lock as well, so no other call begins before that.
begin() {
    local folder=$1
    shift
    set -m
    (let_go; cd "$folder" && exec "$@") </dev/null >>"$log" 2>&1 &
    job=$!
    (
        while runs "$job"; do
            runs "$$" || kill -- "-$job"
            (let_go; exec sleep 1)
        done
        runs "$$" || { [[ ! $room ]] || rm -rf -- "$room"; }
    ) </dev/null >/dev/null 2>&1 &
    guard=$!
    set +m
    catch_signals
}
catch_signals() {
    trap 'interrupted INT' INT
    trap 'interrupted TERM' TERM
    trap 'interrupted HUP' HUP
}

# Ends what was begun, where it hasn't ended, and has no loop look for it any more. `status` is that of the command.
end_job() {
    [[ $job ]] || return
    kill -- "-$job" 2>/dev/null
    wait "$job" 2>/dev/null
    status=$? job=
    kill "$guard" 2>/dev/null
    wait "$guard" 2>/dev/null
    trap - INT TERM HUP
}

# What to do at a signal that ends this script.
interrupted() {
    trap '' INT TERM HUP
    end_job
    [[ ! $room ]] || rm -rf -- "$room"
    say "ended by a signal${at_signal:+; $at_signal}"
    trap - "$1"
    kill -s "$1" "$$"
}
job='' guard='' status='' room='' at_signal=''

# Waits for the lock of this name, which is held until `let_go` or the script's end. The sentence says for what another
# call has it.
take_turn() {
    local turn
    mkdir -p -- "$made" 2>/dev/null && { exec {turn}>>"$made/$1.lock"; } 2>/dev/null || return 1
    turns+=("$turn")
    command -v flock >/dev/null || return 0
    flock -n "$turn" || { say "waits for another call that $2" && flock "$turn"; }
}
let_go() {
    local turn
    for turn in "${turns[@]}"; do exec {turn}>&-; done
    turns=()
}
turns=()

# Whether this kit is one whose inside the builder knows.
is_known_kit() { [[ $kit_id == @(rattle-kit-13f|rattle-kit-13b)?( *) ]]; }

# Runs the builder on a crate, to a file in $made. It says how long that takes.
run_builder() {
    local minutes=$3
    log=$made/$1.build-log
    : >"$log" || return 1
    say "builds $2 of these sources, once, without a proof: $minutes on four idle processors"
    begin "$root" "$launch/unproved" "$1" "$made/$1.new"
    while runs "$job"; do wait "$job"; done
    end_job
    ((status == 0)) && [[ -s $made/$1.new ]]
}

# Builds the program of a crate without a proof.
build_unproved() {
    local before tree=$root minutes='about a minute'
    [[ $1 != wzlog ]] || minutes='about half a minute'
    is_known_kit || { say "rt is that of $kit_id, with which nothing can be built without a proof"; return 1; }
    before=$(sources_now "$1" unproved)
    run_builder "$1" 'the program' "$minutes" || { say "that failed, by $log"; return 1; }
    mv -f -- "$made/$1.new" "$made/$1" || return 1
    program=$made/$1 how=unproved
    if [[ $(sources_now "$1" unproved) == "$before" ]]; then
        put_stamp "$1" unproved "$before"
    else
        rm -f -- "$made/$1.unproved"
        say 'a source changed meanwhile: this is the program of the sources before that'
    fi
}

# Ends the call where there is no kit.
want_kit() {
    find_kit
    [[ ! $kit_id ]] || return 0
    say "$1, and there is no rt on the path: the kit's command, as README.md says under Start"
    exit 127
}

# Builds the program of a crate, and sets `program` and `how`.
build_first() {
    want_kit "the program isn't built from these sources"
    if ! take_turn "$1" 'builds the program here'; then
        say "the program isn't built from these sources, and $made can't be written"
        exit 126
    fi
    look_for "$1" none_is_given
    if [[ ! $how ]] && ! build_unproved "$1"; then
        say 'so it is proved now'
        . "$launch/proof.sh" && prove_in_turn "$1" || {
            say "the program was not built; all that was said is in $log"
            exit 126
        }
        how=proved program=$root/crates/$1/out/$1
    fi
    let_go
}
