# Sourced by what links the library. `archives_of exports owned` exports the paths of libtracker.a and libtracker_owned.a as EXPORTS_LIB and OWNED_LIB, which
# may name others instead; bindings/build writes those that are not built of the sources as they are.
root=$(cd "$(dirname "${BASH_SOURCE[0]}")/../.." && pwd)

archives_of() { # CRATE..
    local crate variable archive names=()
    local -A name=([exports]=tracker [owned]=tracker_owned)
    for crate in "$@"; do
        variable=${crate^^}_LIB
        [ -n "${!variable:-}" ] || names+=("${name[$crate]}")
    done
    [ "${#names[@]}" = 0 ] || "$root/bindings/build" "${names[@]}" >&2 || return 1
    for crate in "$@"; do
        variable=${crate^^}_LIB archive=$root/target/lib/lib${name[$crate]}.a
        archive=${!variable:-$archive}
        [ -f "$archive" ] || { echo "no archive $archive; bindings/build writes it" >&2; return 1; }
        export "$variable=$(realpath "$archive")"
    done
}
