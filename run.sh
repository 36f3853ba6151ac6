#!/bin/sh
# Builds the program and reduces a Matrix Market file: ./run.sh [FILE]
cd "$(dirname "$0")" || exit 2
(cd crates/smith && rt run </dev/null >/dev/null 2>&1) || {
    echo "the program does not build: rt run in crates/smith says why" >&2
    exit 1
}
exec crates/smith/out/smith <"${1:-examples/cyclic.mtx}"
