# For the scripts beside it, which read it in behind tools.sh: the C programs of examples/c.
CC=${CC:-cc}
CXX=${CXX:-c++}
built=$root/target/examples
# The programs that there are in C and in Rust.
examples=(report make recording levels relay late columns uplink)

warnings=(-Wall -Wextra -Wpedantic -Wconversion -Wsign-conversion -Wshadow -Wcast-qual -Wcast-align
    -Wformat=2 -Wundef -Werror)
c_warnings=(-Wstrict-prototypes -Wmissing-prototypes -Wc++-compat)

need_c_compiler() {
    need "$CC" "it builds the C examples; CC can name another C compiler"
}

need_cxx_compiler() {
    need "$CXX" "it builds the C examples as C++; CXX can name another C++ compiler"
}

# Builds the programs by a compiler with further options, and runs them. Those that there are in
# Rust too must print what the documentation shows, and `recording` and `levels` also what a file
# holds; `empty` judges by itself.
c_examples() {
    # Of a tag one byte, and a frame with an offset of one byte.
    local name cut='\10' refused='\10\0\0\4\0\0\50\0\0\0\0\227\0\252\1\0\0\0\17'
    for name in "${examples[@]}"; do
        c_program "$name" "$@"
        "$built/$name-c" > "$built/$name-C.out"
        as_documented "$name" C
    done
    of_a_file recording "40 ms: audio, 0 bytes, LiveOnly, Critical" \
        "$cut" "the file is refused: -25"
    of_a_file recording "40 ms: audio, 0 bytes, LiveOnly, Critical" \
        "$refused" "the frame is refused: -3"
    of_a_file levels "        40 ms  audio      0 |" "$cut" "the file is refused: -25"
    c_program empty "$@"
    "$built/empty-c" > "$built/empty.out" ||
        fail "empty buffers have other answers: $(cat "$built/empty.out")"
}

# Holds what a program prints of a file against a line, and what it fails with against words. The
# file has an empty audio frame at 40 ms, and behind it these bytes, as printf takes them.
of_a_file() {
    local name=$1 expected=$2 behind=$3 words=$4 printed said
    printf 'FLV\1\5\0\0\0\11\0\0\0\0\10\0\0\0\0\0\50\0\0\0\0\0\0\0\13%b' "$behind" \
        > "$built/bad.flv"
    if printed=$("$built/$name-c" "$built/bad.flv" 2> "$built/bad.log"); then
        fail "the C program $name does not fail where $words"
    fi
    said=$(cat "$built/bad.log")
    if [ "$printed" != "$expected" ] || [ "$said" != "$name: $words" ]; then
        fail "the C program $name lists \"$printed\", and says \"$said\""
    fi
}

c_program() {
    local name=$1 compiler=$2
    shift 2
    mkdir -p "$built"
    "$compiler" "${warnings[@]}" "$@" -I "$root/include" "$root/examples/c/$name.c" \
        -x none "${HOZGRIM_STATICLIB:-$root/crates/hozgrim/out}/libhozgrim.a" -o "$built/$name-c"
}

# Holds what a program printed, in one of the languages, against what the documentation shows.
as_documented() {
    local expected=$root/rust/hozgrim/examples/$1.txt
    diff "$expected" "$built/$1-$2.out" ||
        fail "the $2 program $1 does not print what \"$expected\" has"
}

# Whether a compiler has these options, and the program that it makes with them runs.
compiles() {
    local compiler=$1
    shift
    mkdir -p "$built"
    echo 'int main(void) { return 0; }' > "$built/probe.c"
    "$compiler" "$@" "$built/probe.c" -o "$built/probe" 2> "$built/probe.log" && "$built/probe"
}
