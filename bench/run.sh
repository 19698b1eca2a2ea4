#!/bin/sh
# Runs the benchmarks. Figures depend on the machine and on what else it does: compare lines of one
# run alone. Where no program is built that is as new as its sources, one is built without proof first
# (tools/program.sh): it runs as fast as the proved one.
# The allocator is told to keep what is freed. Else it may return the memory of each document to the
# system and ask for it again, and the lines on parsing measure that.
export MALLOC_TRIM_THRESHOLD_=1000000000 MALLOC_TOP_PAD_=50000000
program=$("$(dirname "$0")/../tools/program.sh" benchmarks)
echo "the benchmarks run, for a minute or two" >&2
"$program" run | grep 'MB/s\|s for\|: [0-9]* us'
