# Functions that build what writes event lists. Sourced by host/build.sh.

build_writer() {
    rust_library writing/writer &&
        rust_linked --test --crate-name writer_test -o "$out/writer-test" host/writing/writer/lib.rs
}

build_compare_writing() {
    rust_program writing/compare compare-writing
}

build_list_programs() {
    rust_program writing/programs list-programs
}
