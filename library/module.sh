# shellcheck shell=bash disable=SC2154
# The module that is proved, kept as the kit hands it to its compiler: prove leaves it in $work/kept. For tools/library, which sets
# top, work, home, rt, this_kit and clang, and has tool, say, fail and step.

crate=$top/crates/entries_c
# Code for every x86-64: the kit's own default asks for more than the plainest.
lib=(lib --cpu x86-64)

sources() { # everything that a module comes from, by name and contents
    cd "$top" || return
    echo "$this_kit"
    find crates crates.txt \( -path '*/must-fail' -o -path '*/wrong' -o -regex 'crates/[^/]*/out' \) -prune -o -type f -print0 | sort -z | xargs -0 sha256sum
}

linked() { # FOLDER INTO PART...: links to every part of a folder but these
    local part
    mkdir -p "$2"
    for part in "$1"/*; do
        [[ " ${*:3} " = *" ${part##*/} "* ]] || ln -s "$part" "$2/"
    done
}

# The kit hands the module of what it proved to its clang. A folder of the kit's shape, whose clang keeps the module and the words that it
# is called with, is the only way to it. rt takes the kit to be where its own two files are, so these are copied.
keeping_kit() { # FOLDER KEEP
    linked "$home" "$1" bin toolchain
    linked "$home/bin" "$1/bin" rt rtlib.py
    cp "$home/bin/rt" "$home/bin/rtlib.py" "$1/bin/"
    linked "$home/toolchain" "$1/toolchain" bin
    linked "$home/toolchain/bin" "$1/toolchain/bin" clang
    cat >"$1/toolchain/bin/clang" <<END
#!/bin/sh
case " \$* " in *" -x ir module.bc -o module.o "*)
    cp module.bc '$2/module.bc'
    printf '%s\n' "\$@" >'$2/words'
esac
exec '$clang' "\$@"
END
    chmod +x "$1/toolchain/bin/clang"
}

# Once all is proved, the library is made once more by such a folder, which lies outside the repository, since rt ci takes no links in it. It is the
# same library, byte for byte.
handed_over() {
    local room=$work/kept status=0
    keeper=$(mktemp -d)
    trap 'rm -rf "$keeper"' EXIT
    keeping_kit "$keeper/kit" "$room" && (cd "$crate" && "$keeper/kit/bin/rt" "${lib[@]}") && cmp "$crate/out/libentries_c.a" "$room/libentries_c.a" || status=1
    rm -rf "$keeper"
    return $status
}

# The kit's own object, made again of the kept module by the same words, shows that this is the module that was proved and compiled.
made_again() {
    local words
    mapfile -t words <"$work/kept/words"
    (cd "$work/kept" && "$clang" "${words[@]}" && tool llvm-ar x libentries_c.a && cmp module.o entries_c.o)
}

prove() {
    exec 8<"$top/crates.txt" # one script at a time has rt work in this tree
    flock -n 8 || { say "rt is at work in this tree already, waiting for it"; flock 8; }
    prove_alone
    exec 8<&-
}

prove_alone() {
    local digest
    digest=$(sources | sha256sum)
    if [ -f "$work/kept/sources" ] && [ "$(cat "$work/kept/sources")" = "$digest" ]; then
        step check "asking rt whether all is proved" env -C "$crate" "$rt" check || fail "not proved, so no library is made"
        return
    fi
    rm -rf "$work/kept"
    mkdir -p "$work/kept"
    step lib "proving the crate entries_c and all below it: a minute, or some fifteen where nothing is proved yet" \
        env -C "$crate" "$rt" "${lib[@]}" || fail "not proved, so no library is made"
    cp "$work/lib.log" "$work/kept/said"
    cp "$crate/out/libentries_c.a" "$work/kept/"
    step module "keeping the module that the kit hands to its compiler" handed_over || fail "the kit did not make the same library again"
    [ -f "$work/kept/module.bc" ] || fail "the kit did not hand a module to its compiler in the way that is known"
    step again "making the kit's object again of the module that was kept" made_again ||
        fail "the module that was kept does not give the kit's own object"
    [ "$(sources | sha256sum)" = "$digest" ] || fail "a source was changed while it was proved; start again"
    echo "$digest" >"$work/kept/sources"
}
