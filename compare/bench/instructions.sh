#!/bin/bash
# Counts the instructions of every job of the benchmark, for one run of it, in
# both implementations: by valgrind's callgrind on x86-64, elsewhere by a plugin
# of the emulator that runs the x86-64 program. What comes before and after the
# runs falls out: the count of 2 runs is taken from that of 12.
#
#   compare/bench/instructions.sh BENCH [JOB ...]
#
# BENCH is the program that compare/run builds.
set -euo pipefail

bench=${1:?usage: compare/bench/instructions.sh BENCH [JOB ...]}
shift
if [ "$(uname -m)" = x86_64 ]; then
    run=("$bench")
    count() {
        valgrind --tool=callgrind --callgrind-out-file=/dev/null "$bench" "$@" 2>&1 | awk '/Collected/ { print $NF }'
    }
else
    plugin=$(dirname "$bench")/count.so
    gcc -O2 -shared -fPIC -o "$plugin" "$(dirname "$0")/count.c"
    run=(qemu-x86_64 "$bench")
    count() {
        qemu-x86_64 -plugin "$plugin" "$bench" "$@" 2>&1 | tail -n 1
    }
fi

jobs=("$@")
[ ${#jobs[@]} -gt 0 ] || mapfile -t jobs < <("${run[@]}" list)
other=$("${run[@]}" 2>&1 | sed -n 's/.*bench plain|\([a-z]*\) .*/\1/p' || true)

one_run() {
    local few many
    few=$(count "$1" "$2" 2)
    many=$(count "$1" "$2" 12)
    echo $(((many - few) / 10))
}

printf '%-32s %12s %12s %7s\n' 'job, instructions for one run' plain "$other" ratio
for job in "${jobs[@]}"; do
    plain=$(one_run plain "$job")
    tested=$(one_run "$other" "$job")
    awk -v job="$job" -v plain="$plain" -v tested="$tested" \
        'BEGIN { printf "%-32s %12d %12d %7.2f\n", job, plain, tested, tested / plain }'
done
