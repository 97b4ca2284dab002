#!/bin/sh
# Builds the host programs and runs all tests of the C calls and of the programs
# that are fed by a test.
# Usage: host/test.sh [LIBRARY], with the path of libhoefspanker.a, by default the
# one that `make lib` writes; or host/test.sh stand-in, which takes
# the references in its place; or host/test.sh prepare, which only installs what is
# missing and builds what needs no library, for a later host/test.sh to take. The
# programs are taken from $PROGRAMS, by default where `make programs` puts them.
set -u
cd "$(dirname "$0")/.." || exit 1
. host/build.sh
library=${1:-target/staticlib/libhoefspanker.a}
programs=${PROGRAMS:-target/bin}

# test_that NAME COMMAND ..: one line, and the command's output if it fails.
test_that() {
    name=$1
    shift
    if "$@" >"$out/$lane.log" 2>&1; then
        echo "ok      $name"
    else
        echo "FAILED  $name"
        cat "$out/$lane.log"
        echo "$name" >>"$out/failed"
    fi
}

# in_lane NAME TESTS: tests that run beside those of other lanes; what they print is
# kept until all lanes have ended.
in_lane() {
    lane=$1
    "$2" >"$out/$lane.lane" 2>&1 &
}

# What the lanes printed, the counts as the last line, and the exit status.
finish() {
    wait
    cat "$out"/*.lane
    failed=$(wc -l <"$out/failed")
    echo "$(cat "$out"/*.lane | grep -c '^ok ') passed, $failed failed"
    [ "$failed" -eq 0 ]
    exit
}

bytes_of() {
    grep -v '^#' "examples/$1.hex" | xxd -r -p
}

# prints_as_expected EXAMPLE COMMAND ..: from standard input and from a file.
prints_as_expected() {
    example=$1
    shift
    bytes_of "$example" >"$out/list" &&
        "$@" <"$out/list" >"$out/printed" && diff "$out/printed" "examples/$example.out" &&
        "$@" "$out/list" >"$out/printed" && diff "$out/printed" "examples/$example.out"
}

# refuses_long COMMAND ..: one byte more than the longest list.
refuses_long() {
    head -c 65537 /dev/zero >"$out/list" &&
        "$@" "$out/list" >"$out/printed" && echo 'refused 8' | diff "$out/printed" -
}

build_library() {
    if [ "$library" = stand-in ]; then
        programs=$out/stand-in
        stand_in host "$programs" && stand_in_program arbitration "$programs" &&
            stand_in_program captured "$programs" && stand_in_program compare "$programs" &&
            stand_in_program merges "$programs" && stand_in_program write_list "$programs" &&
            stand_in_program read_list "$programs" && stand_in_program tour "$programs" &&
            use_library "$programs/libhoefspanker.a"
    else
        use_library "$library"
    fi
}

# test_example NAME COMMAND ..: the C example, run by the command.
test_example() {
    by=$1
    shift
    for hex in examples/*.hex; do
        example=$(basename "$hex" .hex)
        test_that "$example, $by" prints_as_expected "$example" "$@"
    done
    test_that "list too long, $by" refuses_long "$@"
}

# A capture of real peers. The name of the test says which.
read_captures() {
    host/captures/test.sh "$programs/captured" "$out/captures" >"$out/captures.log" 2>&1
    captures_status=$?
}

captures_read() {
    cat "$out/captures.log"
    return "$captures_status"
}

# What needs no library.
prepare() {
    rm -rf "$out" && mkdir -p "$out"
    need rustc rustc
    need gcc gcc
    need g++ g++
    need valgrind valgrind
    need xxd xxd
    need protoc protobuf-compiler
    need tshark tshark
    need_grpc
    build_reference && build_reading && build_judge && build_writer && build_programs &&
        build_captures && build_list_programs && build_kept && touch "$out/prepared"
}

the_references() {
    test_that "unit tests of the reference" "$out/reference-test"
    test_that "unit tests of the reading" "$out/reading-test"
    test_that "unit tests of the judge" "$out/judge-test"
    test_that "unit tests of the writer" "$out/writer-test"
}

comparisons() {
    test_that "comparison built" build_compare
    test_that "comparison with the reference" "$out/compare"
    test_that "comparison of messages built" build_compare_messages
    test_that "comparison with the reading" "$out/compare-messages"
    test_that "protobuf's own messages built" build_peer
    test_that "protobuf's own messages" "$out/peer" "$programs/arbitration"
    test_that "comparison of frames built" build_compare_frames
    test_that "comparison with the reading of frames" "$out/compare-frames"
    test_that "programs for captures" "$out/captured-frames" "$programs/captured" \
        "$programs/arbitration"
    read_captures
    test_that "captured, $(head -n 1 "$out/captures.log")" captures_read
    test_that "comparison of verdicts built" build_compare_verdicts
    test_that "comparison with the judge" "$out/compare-verdicts"
    test_that "program for merged logs" "$out/programs" merges "$programs/merges" "$out/logs"
}

the_example() {
    test_that "program for two lists" "$out/programs" compare "$programs/compare" "$out/pairs"
    test_that "C example built" build_example
    test_example valgrind valgrind -q --error-exitcode=9 --leak-check=full "$out/host"
    test_example sanitizers "$out/host-sanitized"
    test_that "C++ header built" build_header
    test_that "C++ header run" "$out/header"
    test_that "comparison of writing built" build_compare_writing
    test_that "comparison with the writer" "$out/compare-writing"
    test_that "programs for texts of lists" "$out/list-programs" "$programs/write_list" \
        "$programs/read_list"
    test_that "master and largest id that the state keeps" "$out/kept" "$programs/tour"
}

the_measurement() {
    test_that "measurement built" build_bench
    test_that "measurement run" "$out/bench" 1
}

if [ "$library" = prepare ]; then
    prepare
    exit
fi
[ -e "$out/prepared" ] || prepare || exit 1
rm -f "$out/prepared" "$out"/*.lane
: >"$out/failed"
lane=library
test_that "library: $library" build_library >"$out/$lane.lane"
[ ! -s "$out/failed" ] || finish
build_calls || exit 1
in_lane comparisons comparisons
in_lane example the_example
lane=references
the_references >"$out/$lane.lane"
wait
lane=measurement
the_measurement >"$out/$lane.lane"
finish
