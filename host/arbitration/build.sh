# Functions that build what reads arbitration messages. Sourced by host/build.sh.

build_reading() {
    rust_library arbitration/reading && rust_library arbitration/messages &&
        rust_linked --test --crate-name reading_test -o "$out/reading-test" \
            host/arbitration/reading/lib.rs
}

build_compare_messages() {
    rust_program arbitration/compare compare-messages
}

build_compare_frames() {
    rust_program arbitration/frames compare-frames
}

build_captures() {
    rust_program arbitration/programs captured-frames
}

build_peer() {
    rust_program arbitration/peer peer
}
