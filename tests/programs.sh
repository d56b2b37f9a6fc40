# Stored runs of a program beside the second implementation's; sourced. What each must print stands in tests/runs/.
# Asks for: program, reference (what to run) and work (a folder to write to). With --write as the script's first word, which
# `make runs` gives, the runs are stored instead, as the second implementation prints them.
rm -rf "$work"
mkdir -p "$work"
failed=0
runs=0
mode=${1:-}

# bytes NUMBER..: the numbers as bytes
bytes() {
    local n
    for n in "$@"; do printf "\\x$(printf %02x "$n")"; done
}

# Whether the runs are to be stored.
writing() {
    [ "$mode" = --write ]
}

# write NAME: stores what the second implementation prints; two programs may share a run only where both print the same
write() {
    if ! "$reference" < "$work/input" > "$work/output"; then
        echo "$1: $reference does not exit with 0"
        failed=1
    elif [ -e "tests/runs/$1" ] && ! cmp -s "$work/output" "tests/runs/$1"; then
        echo "$1: stored already, with another text"
        failed=1
    else
        cp "$work/output" "tests/runs/$1"
    fi
}

# run NAME: the input in $work/input must give tests/runs/NAME, on both sides
run() {
    local name=$1 side
    runs=$((runs + 1))
    if writing; then
        write "$name"
        return
    fi
    for side in "$program" "$reference"; do
        if ! "$side" < "$work/input" > "$work/output"; then
            echo "$name: $side does not exit with 0"
            failed=1
        fi
        if ! cmp -s "$work/output" "tests/runs/$name"; then
            echo "$name: $side prints"
            head -n 20 "$work/output"
            failed=1
        fi
    done
}

# stored NAME DESIGN NUMBER..: the numbers as bytes, then the design
stored() {
    local name=$1 design=$2
    shift 2
    { bytes "$@"; cat "$design"; } > "$work/input"
    run "$name"
}
