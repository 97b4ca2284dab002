#!/bin/sh
# Builds the measurement and runs it. Usage: host/bench.sh [ROUNDS]. Takes the
# library and the program for merged logs from where `make` puts them.
set -u
cd "$(dirname "$0")/.." || exit 1
. host/build.sh
out=build/bench
mkdir -p "$out"
need rustc rustc
need gcc gcc
use_library target/staticlib/libhoefspanker.a || exit 1
build_reference && build_reading && build_judge && build_calls && build_bench &&
    stand_in host "$out/plain" && stand_in_program merges "$out/plain" || exit 1
exec "$out/bench" "${1:-60}" target/bin/merges "$out/plain/merges"
