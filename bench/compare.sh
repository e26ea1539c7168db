#!/bin/bash
# Compares a program with the plain Rust program of the same job: bash bench/compare.sh OURS
#
# Builds rust/walks.rs and generates the inputs into a temporary directory, checks that both
# programs write the same bytes on each input and end with status 0, and prints for each input the
# instructions that callgrind counts for each program, their ratio (ours / Rust), and the best wall
# time of 20 runs of each in milliseconds. Ends with a non-zero status when outputs differ or when
# anything else fails.

set -euo pipefail

if [ $# -ne 1 ] || [ ! -x "$1" ]; then
    echo "usage: bash bench/compare.sh OURS (a program that reads stdin and writes stdout)" >&2
    exit 2
fi
ours=$(realpath "$1")
here=$(cd "$(dirname "$0")" && pwd)
dir=$(mktemp -d)
trap 'rm -rf "$dir"' EXIT
rust=$dir/walks

rustc --edition 2021 -C opt-level=3 -C panic=abort -o "$rust" "$here/rust/walks.rs"
python3 "$here/inputs.py" "$dir"

inputs="units states single wide"
for name in $inputs; do
    for program in ours rust; do
        "${!program}" <"$dir/$name.bin" >"$dir/$program.txt" ||
            { echo "$program fails on $name.bin" >&2; exit 1; }
    done
    cmp "$dir/ours.txt" "$dir/rust.txt" || { echo "outputs differ on $name.bin" >&2; exit 1; }
done

# instructions PROGRAM INPUT
instructions() {
    valgrind --tool=callgrind --callgrind-out-file=/dev/null "$1" <"$2" 2>&1 >"$dir/out.txt" |
        sed -n 's/^==[0-9]*== Collected *: *\([0-9][0-9]*\).*/\1/p' | grep .
}

# best_times INPUT: of ours and of Rust in milliseconds, with the start of the process; the runs of
# the two take turns, so that other work on the machine hits both alike
best_times() {
    python3 - "$1" "$ours" "$rust" <<'PYTHON'
import subprocess, sys, time

def run(program):
    with open(sys.argv[1], "rb") as file:
        begin = time.perf_counter()
        subprocess.run([program], stdin=file, stdout=subprocess.DEVNULL, check=True)
        return time.perf_counter() - begin

times = [[run(program) for program in sys.argv[2:]] for _ in range(20)]
print(*(f"{min(best) * 1000:.2f}" for best in zip(*times)))
PYTHON
}

row='%-8s %12s %12s %7s %9s %9s\n'
printf "$row" input ours rust ratio "ours ms" "rust ms"
for name in $inputs; do
    file=$dir/$name.bin
    a=$(instructions "$ours" "$file")
    b=$(instructions "$rust" "$file")
    ratio=$(python3 -c "print(f'{$a / $b:.3f}')")
    times=$(best_times "$file")
    printf "$row" "$name" "$a" "$b" "$ratio" $times
done
