# Sourced: what rt says to rattle, for checks and builds that rt has no command for. The crates below must have been proved (rt check, rt lib or rt ci) as they
# are: they are taken from their out/rlib.
kit=${RATTLE_KIT:-$(dirname "$(dirname "$(readlink -f "$(command -v rt)")")")}
export kit

# The crates that a line of crates.txt lists.
listed_of() { # NAME
    sed -n "s/#.*//; s/^$1\( [^:]*\)\?: *//p" crates.txt
}

# Runs rattle on a crate with rt's words for it, whose files stand in the folder SOURCE; the words given come last. From the repository's root.
rattle_on() { # VERB NAME SOURCE [WORDS..]
    local verb=$1 root=lib words d
    shift
    [ -f "$2/src/lib.rt" ] || root=main
    words=(--crate-name "$1" "src/$root.rt" --extern "std=$kit/rlibs/std.rlib" -L "dependency=$kit/rlibs")
    ! grep -q "^$1 [^:]*staticlib" crates.txt || words+=(--crate-type staticlib)
    for d in $(listed_of "$1"); do
        if [ -d "crates/$d" ]; then
            words+=(--extern "$d=$PWD/crates/$d/out/rlib/$d.rlib" -L "dependency=$PWD/crates/$d/out/rlib")
        else
            words+=(--extern "$d=$kit/rlibs/$d.rlib")
        fi
    done
    words+=(--antt-project "$kit/rattle/logic/antt-project.json" --logic-built "$kit/logic_built")
    (cd "$2" && shift 2 && "$kit/bin/rattle" "$verb" "${words[@]}" "$@")
}
