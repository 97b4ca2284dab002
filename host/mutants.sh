#!/bin/sh
# Shows that the comparisons find wrong libraries: each line of a table puts one
# mistake into a copy of a reference, or of a program over it, which then stands in
# for the library.
# Prints a line a mistake and 'N found, M missed'. Takes some minutes.
# Usage: host/mutants.sh [lists] [messages] [frames] [verdicts] [logs] [writing] [kept], by
# default all.
set -u
cd "$(dirname "$0")/.." || exit 1
. host/build.sh
out=build/mutants
mutant=$out/mutant
found=0
missed=0

# build_mutant FILE EDIT BUILD: the host's folder with the mistake in it, under the
# library's name, and the comparison with it.
build_mutant() {
    rm -rf "$mutant"
    mkdir -p "$mutant"
    cp -r host "$mutant/host"
    sed -i "$2" "$mutant/$1" || return 1
    if cmp -s "$1" "$mutant/$1"; then
        echo "the edit changes nothing: $2"
        return 1
    fi
    stand_in "$mutant/host" "$mutant" && use_library "$mutant/libhoefspanker.a" && build_calls && "$3"
}

# try_mistakes TABLE FOLDER BUILD COMPARISON ..: the mistakes of a table in the files
# of a folder, each looked for by a comparison.
try_mistakes() {
    table=$1
    sources=$2
    build=$3
    shift 3
    while IFS='|' read -r mistake file edit; do
        build_mutant "$sources/$file" "$edit" "$build" || exit 1
        "$@" >"$out/log" 2>&1
        # 0 and 2 mean no difference; above that, the mistake ended the program.
        case $? in
        0 | 2)
            missed=$((missed + 1))
            echo "MISSED  $mistake"
            ;;
        *)
            found=$((found + 1))
            echo "found   $mistake: $(tail -1 "$out/log")"
            ;;
        esac
    done <"$table"
}

# The programs for merges with the mistake in them.
build_mutant_programs() {
    stand_in_program compare "$mutant" && stand_in_program merges "$mutant" && build_programs
}

run_mutant_programs() {
    "$out/programs" compare "$mutant/compare" "$out/scratch" &&
        "$out/programs" merges "$mutant/merges" "$out/scratch"
}

# The writer with the mistake in it, as a library and as programs.
build_mutant_writer() {
    build_compare_writing && stand_in_program write_list "$mutant" &&
        stand_in_program read_list "$mutant" && build_list_programs
}

run_mutant_writer() {
    "$out/compare-writing" 1 10000 &&
        "$out/list-programs" "$mutant/write_list" "$mutant/read_list"
}

# The program `tour` with the mistake in it or in the reference below it.
build_mutant_tour() {
    stand_in_crate "$mutant" --cap-lints allow --crate-type bin "$mutant/host/standin/tour.rs" &&
        build_kept
}

try_part() {
    case $1 in
    lists)
        try_mistakes host/mutants.txt host/reference build_compare "$out/compare" 1 10000
        ;;
    messages)
        try_mistakes host/arbitration/mutants.txt host/arbitration/reading \
            build_compare_messages "$out/compare-messages" 1 10000
        ;;
    frames)
        try_mistakes host/arbitration/frame-mutants.txt host/arbitration/reading \
            build_compare_frames "$out/compare-frames" 1 10000
        ;;
    verdicts)
        try_mistakes host/verdict/mutants.txt host/verdict/judge \
            build_compare_verdicts "$out/compare-verdicts" 1 6000
        ;;
    logs)
        try_mistakes host/verdict/log-mutants.txt host/verdict/judge build_mutant_programs \
            run_mutant_programs
        ;;
    writing)
        try_mistakes host/writing/mutants.txt host/writing/writer build_mutant_writer \
            run_mutant_writer
        ;;
    kept)
        try_mistakes host/kept/mutants.txt host build_mutant_tour "$out/kept" "$mutant/tour"
        ;;
    *)
        echo "no such part: $1"
        exit 1
        ;;
    esac
}

mkdir -p "$out"
build_reference && build_reading && build_judge && build_writer || exit 1
for part in ${*:-lists messages frames verdicts logs writing kept}; do
    try_part "$part"
done
echo "$found found, $missed missed"
[ "$missed" -eq 0 ]
