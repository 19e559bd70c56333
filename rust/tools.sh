# For the scripts beside it, which read it in: the usage, the words of a call, and what they need.
# A script begins with its usage, a comment that ends at the first empty line.
root=$(CDPATH='' cd "$(dirname "${BASH_SOURCE[0]}")/.." && pwd)
tool=${0##*/}

# What every command of cargo is given.
cargo_options=(--manifest-path "$root/rust/Cargo.toml" --offline --quiet)

# Something is missing, or did not work.
fail() {
    echo "$tool: $1" >&2
    exit 1
}

# The call cannot be understood.
misused() {
    echo "$tool: $1" >&2
    exit 2
}

usage() {
    sed -n '2,/^$/s/^# \{0,1\}//p' "$0"
}

# The words that the usage lists, a line each, with what a word takes: lines that begin with two
# spaces, a word in small letters and names in capitals.
listed() {
    usage | sed -nE 's/^  ([a-z_-]+( [A-Z]+)*)(  .*)?$/\1/p'
}

# Prints the usage if a call asks for it. Turns a call away that has a word which is not listed.
take_words() {
    local word values value
    local -A takes=()
    for word; do
        case $word in -h | --help) usage; exit ;; esac
    done
    while read -r word values; do
        takes[$word]=$values
    done < <(listed)
    while [ $# -gt 0 ]; do
        word=$1
        shift
        if [ -z "$word" ] || [ -z "${takes[$word]+listed}" ]; then
            misused "\"$word\" is not possible here; possible are:
  $(listed | cut -d ' ' -f 1 | paste -s -d ' ')"
        fi
        for value in ${takes[$word]}; do
            [ $# -gt 0 ] || misused "$word needs ${takes[$word]} behind it"
            take_value "$word" "$value" "$1"
            shift
        done
    done
}

# What may stand behind a word, by the name that the usage has for it.
take_value() {
    case $2 in
        N) [[ $3 =~ ^[0-9]{1,19}$ ]] ||
            misused "$1 needs a number of up to 19 digits, and \"$3\" is none" ;;
        FOLDER) [ -d "$3" ] || fail "there is no folder \"$3\"" ;;
    esac
}

# A command, and what it is for.
need() {
    command -v "$1" > /dev/null || fail "the command \"$1\" is missing: $2"
}

need_cargo() {
    need cargo "it builds the Rust side"
}

# Makes the archives of these crates, each in its crate's folder out/, where cargo looks for it. If
# HOZGRIM_STATICLIB is set, they must be in that folder, and cargo takes them from there. The
# benchmark is told by which toolchain they were made.
need_archives() {
    local name
    if [ -n "${HOZGRIM_STATICLIB-}" ]; then
        HOZGRIM_STATICLIB=$(realpath -m -- "$HOZGRIM_STATICLIB")
        for name; do
            [ -f "$HOZGRIM_STATICLIB/lib$name.a" ] ||
                fail "HOZGRIM_STATICLIB is set, and there is no \"$HOZGRIM_STATICLIB/lib$name.a\""
        done
        echo "$tool: the archives are those in $HOZGRIM_STATICLIB" >&2
        return
    fi
    need rt "it proves the port and makes its archives; HOZGRIM_STATICLIB can name a folder of them"
    for name; do
        (cd "$root/crates/$name" && rt lib) >&2 ||
            fail "rt lib did not make the archive of $name"
    done
    HOZGRIM_TOOLCHAIN=$(rt version)
    export HOZGRIM_TOOLCHAIN
}

# Builds these programs, by a run on no input, and puts them into one folder. If HOZGRIM_PROGRAMS is
# set, they must be in that folder.
need_programs() {
    local name
    if [ -n "${HOZGRIM_PROGRAMS-}" ]; then
        HOZGRIM_PROGRAMS=$(realpath -m -- "$HOZGRIM_PROGRAMS")
        for name; do
            [ -f "$HOZGRIM_PROGRAMS/$name" ] ||
                fail "HOZGRIM_PROGRAMS is set, and there is no \"$HOZGRIM_PROGRAMS/$name\""
        done
        echo "$tool: the programs are those in $HOZGRIM_PROGRAMS" >&2
        return
    fi
    need rt "it proves and builds the programs; HOZGRIM_PROGRAMS can name a folder of them"
    HOZGRIM_PROGRAMS=$root/target/bin
    mkdir -p "$HOZGRIM_PROGRAMS"
    for name; do
        (cd "$root/crates/$name" && rt run < /dev/null > /dev/null) >&2 ||
            fail "rt run did not build the program $name"
        [ ! -f "$root/crates/$name/out/$name" ] ||
            cp "$root/crates/$name/out/$name" "$HOZGRIM_PROGRAMS/"
    done
}
