# Functions that build the host programs. Sourced by the scripts beside it, which
# run in the repository's folder.

out=build/host

# need COMMAND PACKAGE: installs the package if the command is missing.
need() {
    command -v "$1" >/dev/null || install_package "$2"
}

# gRPC for Debian's own Python.
need_grpc() {
    /usr/bin/python3 -c 'import grpc' 2>/dev/null || install_package python3-grpcio
}

install_package() {
    export DEBIAN_FRONTEND=noninteractive
    apt-get install -y "$1" || { apt-get update && apt-get install -y "$1"; } || exit 1
}

rust() {
    rustc --edition 2021 -C opt-level=3 -C codegen-units=1 -D warnings "$@"
}

# host/FOLDER/lib.rs, for the programs, as a crate with the folder's name.
rust_library() {
    rust_linked --crate-type rlib --crate-name "$(basename "$1")" --out-dir "$out" \
        "host/$1/lib.rs"
}

# rust_program FOLDER PROGRAM ..: host/FOLDER/main.rs, with further arguments for
# rustc.
rust_program() {
    folder=$1
    program=$2
    shift 2
    rust_linked --crate-name "$(echo "$program" | tr - _)" -o "$out/$program" "$@" \
        "host/$folder/main.rs"
}

rust_linked() {
    rust -L "$out" -L "native=$out/lib" \
        --extern random --extern reference --extern lists --extern library --extern trial \
        --extern reading --extern messages --extern calls --extern judge --extern pairs \
        --extern writer "$@"
}

# stand_in HOST FOLDER: the references of HOST, which is laid out as host, under
# the library's name in FOLDER/libhoefspanker.a. The metadata keeps their symbols
# apart from those that the host's programs link.
stand_in() {
    mkdir -p "$2"
    stand_in_crate "$2" --cap-lints allow --crate-type rlib "$1/reference/lib.rs" &&
        stand_in_crate "$2" --cap-lints allow --crate-type rlib "$1/arbitration/reading/lib.rs" &&
        stand_in_crate "$2" --cap-lints allow --crate-type rlib "$1/verdict/judge/lib.rs" &&
        stand_in_crate "$2" --cap-lints allow --crate-type rlib "$1/writing/writer/lib.rs" &&
        stand_in_crate "$2" --crate-type staticlib host/standin/hoefspanker.rs
}

# stand_in_program PROGRAM FOLDER: a program over those references.
stand_in_program() {
    stand_in_crate "$2" --crate-type bin "host/standin/$1.rs"
}

# stand_in_crate FOLDER ARGUMENTS .. SOURCE: a crate named by its file or, if that
# is lib.rs, by its folder.
stand_in_crate() {
    into=$1
    shift
    eval "source=\${$#}"
    [ "$(basename "$source")" != lib.rs ] || source=$(dirname "$source")
    rust -C metadata=stand-in --crate-name "$(basename "$source" .rs)" --out-dir "$into" \
        -L "$into" --extern reference --extern reading --extern judge --extern writer "$@"
}

# Puts a library where the programs link it from.
use_library() {
    mkdir -p "$out/lib" && cp "$1" "$out/lib/libhoefspanker.a"
}

build_reference() {
    rust_library random && rust_library trial && rust_library reference && rust_library lists &&
        rust_linked --test --crate-name reference_test -o "$out/reference-test" \
            host/reference/lib.rs
}

# The C calls as a Rust host makes them; every program that makes one needs them first.
build_calls() {
    rust_library library && rust_library arbitration/calls
}

build_compare() {
    rust_program compare compare
}

build_kept() {
    rust_program kept kept
}

build_bench() {
    c_object -O2 -c host/bench/stack.c -o "$out/stack.o" &&
        rust_program bench bench -C "link-arg=$out/stack.o"
}

c_object() {
    gcc -std=c11 -Wall -Wextra -Wpedantic -Werror -Iinclude "$@"
}

build_example() {
    c_object -g -O2 -o "$out/host" examples/host.c "$out/lib/libhoefspanker.a" &&
        c_object -g -fsanitize=address,undefined -o "$out/host-sanitized" \
            examples/host.c "$out/lib/libhoefspanker.a"
}

build_header() {
    g++ -std=c++11 -Wall -Wextra -Wpedantic -Werror -Iinclude -o "$out/header" \
        host/header/header.cpp "$out/lib/libhoefspanker.a"
}

. host/arbitration/build.sh
. host/verdict/build.sh
. host/writing/build.sh
