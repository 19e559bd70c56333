# For the scripts beside it, which read it in behind tools.sh: the Rust files of the original.
sources=$(realpath -m -- "${LIBRTMP2_SRC:-$root/../shared/docs/src}")

have_sources() {
    [ -f "$sources/src/types.rs" ]
}

# Names the files for cargo.
need_sources() {
    have_sources || fail "the Rust files that the port is compared with are missing:
there is no \"$sources/src/types.rs\". Set LIBRTMP2_SRC to the folder that holds src/types.rs."
    export LIBRTMP2_SRC=$sources
}
