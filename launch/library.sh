# Links the library: the object files of the crate `wolzenn_c` with heap.c and texts.c of the folder library.

# The number of the binary interface, which the shared library's name and wolzenn.map have. It changes when a program
# that was linked with an older one would not run with the new one. (WZ_VERSION changes with each change.)
abi=3
shared=libwolzenn.so.$abi

# Whether the tools that link it are there; it says which isn't.
has_library_tools() {
    local tool
    for tool in "${CC:-cc}" ar objcopy; do
        command -v "$tool" >/dev/null || { say "there is no $tool"; return 1; }
    done
}

# link_library HOW FILE WORD [LINE..]: makes the library of this file, an archive or an object file, and its stamp. The
# word is that of its sources. Other files see the functions of the header, and no other name. What is there stays as it
# was until all is made.
link_library() {
    local out=$root/library/out at place is_proved=0 file
    local -a flags objects
    [[ $1 != proved ]] || is_proved=1
    flags=(-std=c11 -O2 -fPIC -Wall -Wextra "-DWZ_PROVED=$is_proved" -c)
    at=$(readlink -f -- "$2") && mkdir -p -- "$out" && place=$(mktemp -d "$out/making.XXXXXX") || return 1
    {
        if [[ $at == *.a ]]; then (cd "$place" && ar x "$at"); else cp -- "$at" "$place/crate.o"; fi &&
            "${CC:-cc}" "${flags[@]}" -o "$place/heap.o" "$root/library/heap.c" &&
            "${CC:-cc}" "${flags[@]}" -o "$place/texts.o" "$root/library/texts.c" &&
            objects=("$place"/*.o) &&
            "${CC:-cc}" -r -nostdlib -o "$place/all.o" "${objects[@]}" &&
            objcopy --wildcard --keep-global-symbol='wz_*' "$place/all.o" "$place/wolzenn.o" &&
            rm -f "$place/libwolzenn.a" && ar rcsD "$place/libwolzenn.a" "$place/wolzenn.o" &&
            "${CC:-cc}" -shared "-Wl,-soname,$shared" "-Wl,--version-script,$root/library/wolzenn.map" -Wl,-z,defs \
                -Wl,-z,noexecstack -Wl,-z,relro -Wl,-z,now -o "$place/$shared" "$place/wolzenn.o" &&
            ln -s "$shared" "$place/libwolzenn.so" && rm -f -- "$out/built" &&
            for file in libwolzenn.a "$shared" libwolzenn.so; do mv -f -- "$place/$file" "$out/$file" || break; done &&
            [[ ! -e $place/libwolzenn.so ]]
    } >>"$log" 2>&1
    status=$?
    rm -rf -- "$place"
    ((status == 0)) || return 1
    if [[ $(sources_now wolzenn_c "$1") == "$3" ]]; then
        put_stamp wolzenn_c "$1" "${@:3}"
    else
        say 'a source changed meanwhile: this is the library of the sources before that'
    fi
}
