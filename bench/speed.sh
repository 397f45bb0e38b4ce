#!/bin/sh
# Times the margin questions, with 405 scenarios: microseconds for one question, by the number of positions.
# Each is run with few and with many questions in turn, five times or as many as the argument says; the difference of the
# best runs leaves the start-up out.
set -eu
turns=${1:-5}
cd "$(dirname "$0")/.."
if ! said=$(cd crates/speed && rt run -- 1 1 0 0 2>&1); then
    echo "$said" >&2
    exit 1
fi

# nanoseconds of one run: POSITIONS MINIMUMS REQUIREDS
run() {
    began=$(date +%s%N)
    crates/speed/out/speed "$1" 405 "$2" "$3" > /dev/null
    ended=$(date +%s%N)
    echo $((ended - began))
}

# the lesser of two numbers, the first of which may be empty
lesser() {
    if [ -z "$1" ] || [ "$2" -lt "$1" ]; then echo "$2"; else echo "$1"; fi
}

# picoseconds of one question: QUESTION POSITIONS TIMES
question() {
    few= many=
    for turn in $(seq "$turns"); do
        if [ "$1" = minimum ]; then
            few=$(lesser "$few" "$(run "$2" "$3" 0)")
            many=$(lesser "$many" "$(run "$2" $(($3 * 5)) 0)")
        else
            few=$(lesser "$few" "$(run "$2" 0 "$3")")
            many=$(lesser "$many" "$(run "$2" 0 $(($3 * 5)))")
        fi
    done
    echo $(((many - few) * 1000 / ($3 * 4)))
}

# a row of the table: POSITIONS MINIMUMS REQUIREDS, about 10 milliseconds of each
row() {
    minimum=$(question minimum "$1" "$2")
    required=$(question required "$1" "$3")
    awk -v p="$1" -v m="$minimum" -v r="$required" \
        'BEGIN { printf "| %d | %.3f | %.1f |\n", p, m / 1000000, r / 1000000 }'
}

echo "| Positions | minimum, µs | required, µs |"
echo "|---|---|---|"
row 1 1000000 6000
row 16 25000 1500
row 64 1600 400
row 128 400 160
