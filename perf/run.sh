#!/bin/sh
# Builds the port's loops as a static library and times them. Not part of the gate.
set -eu
cd "$(dirname "$0")/.."
(cd crates/pace && rt lib)
mkdir -p target/perf
gcc -O2 -o target/perf/pace perf/pace.c crates/pace/out/libpace.a
target/perf/pace
