# Functions that build what judges merges. Sourced by host/build.sh.

build_judge() {
    rust_library verdict/judge && rust_library verdict/pairs &&
        rust_linked --test --crate-name judge_test -o "$out/judge-test" host/verdict/judge/lib.rs
}

build_compare_verdicts() {
    rust_program verdict/compare compare-verdicts
}

build_programs() {
    rust_program verdict/programs programs
}
