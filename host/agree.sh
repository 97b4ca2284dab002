#!/bin/sh
# Compares the reference of an earlier revision with today's on generated lists: for
# a change that must leave every answer and every history as it was.
# Usage: host/agree.sh REVISION [SEED [NUMBER]]
set -u
cd "$(dirname "$0")/.." || exit 1
. host/build.sh
out=build/agree
earlier=$out/earlier
if ! git rev-parse --quiet --verify "${1:-}^{commit}" >/dev/null; then
    echo "usage: host/agree.sh REVISION [SEED [NUMBER]]" >&2
    exit 2
fi
rm -rf "$out" && mkdir -p "$earlier" || exit 1
# What the revision does not have yet is today's.
cp -r host "$earlier" || exit 1
git archive "$1" host | tar -x -C "$earlier" || exit 1
shift
build_reference && build_reading && build_judge &&
    stand_in "$earlier/host" "$earlier" && use_library "$earlier/libhoefspanker.a" &&
    build_calls && build_compare && "$out/compare" "$@"
