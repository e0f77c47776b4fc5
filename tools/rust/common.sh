# What tools/differential and tools/bench share; read by both. They set `root`, the repository's folder, and `usage_file`.
# shellcheck shell=sh disable=SC2154

# The words are wrong: says how they are to be.
usage() {
    cat "$usage_file" >&2
    exit 2
}

# The words are right, but something is not there.
fail() {
    echo "${0##*/}: $*" >&2
    exit 2
}

# A whole number in decimal digits, no longer than 64 bits may be.
number() {
    case $1 in
        '' | *[!0-9]*) usage ;;
    esac
    [ "${#1}" -le 20 ] || usage
}

# A number above 0.
above_zero() {
    number "$1"
    case $1 in
        *[!0]*) ;;
        *) usage ;;
    esac
}

# Exports the folder $1 as PHONORS_SRC, or the one that is named there already, by its full path. If neither is given, the build
# takes shared/docs/src beside the repository.
take_source() {
    [ -z "$1" ] || PHONORS_SRC=$1
    if [ -n "$PHONORS_SRC" ]; then
        [ -f "$PHONORS_SRC/src/interaction.rs" ] ||
            fail "no src/interaction.rs in $PHONORS_SRC; --source or PHONORS_SRC names the folder of the phonors source"
        PHONORS_SRC=$(cd "$PHONORS_SRC" && pwd)
        export PHONORS_SRC
    else
        unset PHONORS_SRC
        [ -f "$root/../shared/docs/src/src/interaction.rs" ] ||
            fail "no phonors source in shared/docs/src beside the repository; name its folder with --source or in PHONORS_SRC"
    fi
}

# Exports WIRAMBOLO_LIB, the folder of the proved library, by its full path; builds the library if none is named there.
take_library() {
    if [ -n "$WIRAMBOLO_LIB" ]; then
        [ -f "$WIRAMBOLO_LIB/libwirambolo_c.a" ] || fail "no libwirambolo_c.a in $WIRAMBOLO_LIB, which WIRAMBOLO_LIB names"
        WIRAMBOLO_LIB=$(cd "$WIRAMBOLO_LIB" && pwd)
    else
        "$root/tools/build" wirambolo_c >&2
        WIRAMBOLO_LIB="$root/target/staticlib"
    fi
    export WIRAMBOLO_LIB
}

# Exports KEY, the program, by its full path; builds it if none is named there.
take_key() {
    if [ -n "$KEY" ]; then
        case $KEY in
            /*) ;;
            *) KEY=$(pwd)/$KEY ;;
        esac
        { [ -f "$KEY" ] && [ -x "$KEY" ]; } || fail "$KEY, which KEY names, is no program"
    else
        "$root/tools/build" key >&2
        KEY="$root/target/bin/key"
    fi
    export KEY
}
