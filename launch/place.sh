# What each launcher begins with: where things are, and how it speaks. The launcher has set `here`, the top folder of
# the checkout, or the folder `bin` of a release, and `me`, its name.

# The version, that of library/rust/Cargo.toml, and the kit by which all is proved.
version=0.1.0
kit=rattle-kit-13f

# A release, which tools/release makes, has no sources: the programs are there, and nothing is built.
root=$here
is_released=
if [[ ! -d $here/crates && -d ${here%/*}/libexec/wolzenn ]]; then
    is_released=1
    root=${here%/*}
fi
inner=$root/libexec/wolzenn
# What is built without a proof, the locks, and what was said by builds and proofs.
made=$root/launch/out

# The folder with the pages, for the program's sentences too. Sentences of a launcher call it `docs` where that is here.
if [[ ! ${WOLZENN_PAGES-} ]]; then
    WOLZENN_PAGES=$root/docs
    [[ ! $is_released || -e $WOLZENN_PAGES/RECOVERY.md ]] || WOLZENN_PAGES=$root/share/doc/wolzenn
fi
export WOLZENN_PAGES
pages=$WOLZENN_PAGES
[[ ! docs -ef $pages ]] || pages=docs

# The launcher as it was called: by its name alone where it was found so.
called=$0
[[ $0 == */* && :${PATH-}: != *:"${0%/*}":* ]] || called=${0##*/}
# What proves, as it is called from here.
prover=./prove
[[ . -ef $root ]] || printf -v prover %q "$root/prove"

# Says a line, in the place of one that `tell` may have left open.
is_open=
say() {
    [[ ! $is_open ]] || printf '\r\e[K' >&2
    is_open=
    printf '%s: %s\n' "$me" "$*" >&2
}

# Whether a process still runs, and isn't only waited for.
runs() { [[ -e /proc/$1/exe ]]; }

# What is known of the program that a call would run, which is named by this variable: for `--version`.
what_is_known() {
    look_for "$1" "$2"
    case $how in
    given) echo "named by $2" ;;
    proved) echo 'proved here' ;;
    released) echo 'proved for this release' ;;
    trial) echo 'not proved' ;;
    *) echo 'not proved here' ;;
    esac
}

# Looks for the program of this crate, or the one that a variable names: sets `program`, and `how` to `given`,
# `released`, `trial` (a release that isn't proved), `proved` or `unproved`, or to nothing where none is built of the
# sources as they are.
look_for() {
    how= program=${!2-}
    if [[ $program ]]; then
        how=given
    elif [[ $is_released ]]; then
        how=released program=$inner/$1
        [[ ! -e $inner/not-proved ]] || how=trial
    elif is_current "$1" proved; then
        how=proved program=$root/crates/$1/out/$1
    elif is_current "$1" unproved; then
        how=unproved program=$made/$1
    fi
}

# The same, and it is built where there is none. Of one that isn't proved it says so.
find_program() {
    look_for "$1" "$2"
    if [[ ! $how ]]; then
        . "$launch/first.sh" || exit 126
        build_first "$1"
    fi
    ! is_unproved || say "$(why_unproved)"
    [[ -x $program ]] && return
    say "$program is no program that can be run"
    exit 126
}

is_unproved() { [[ $how == @(unproved|trial) ]]; }

why_unproved() {
    if [[ $how == trial ]]; then
        echo "this is a trial, of which nothing is proved"
    else
        echo "this build isn't proved on this machine: $prover proves it"
    fi
}

[[ $is_released ]] || . "$launch/stamps.sh" || exit 126
