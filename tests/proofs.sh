# Proofs by cadical, and what `stm refute` says of them, as the rows of designs/rows-refuted.txt have it; sourced.
# Asks for: stm (the program), judge (the same over the second implementation), work (a folder to write to) and fault (told what is
# wrong).
table=designs/rows-refuted.txt

# on NAME COMMAND WORDS..: the command on a design, or on a design and a piece, which are joined by +
on() {
    local name=$1 command=$2
    shift 2
    case $name in
    *+*) "$stm" "$command" "designs/${name%+*}" "$@" --piece "designs/${name#*+}" ;;
    *) "$stm" "$command" "designs/$name" "$@" ;;
    esac
}

# The rows that a script asks again; its name is the row's last word.
rows_of() {
    awk -v by="$1" '!/^#/ && $NF == by { $NF = ""; print }' "$table"
}

# The solver's name with its version.
solver_name() {
    echo "cadical-$(cadical --version)"
}

# prove NAME PROPERTY BOUND: the formula in $work/cnf, and cadical's proof of it in $work/proof; 1 where there is no proof
prove() {
    rm -f "$work/proof"
    on "$1" cnf "$2" "$3" > "$work/cnf" || { fault "stm cnf $1 $2 $3"; return 1; }
    cadical -q --no-binary "$work/cnf" "$work/proof" > /dev/null
    [ $? = 20 ] || { fault "$1, property $2, bound $3: cadical does not answer unsat"; return 1; }
}

# The clauses and words of a proof, deletions left out. Counted apart from stm, which has to read the same number.
proof_size() {
    awk '$1 != "d" { clauses++; words += NF } END { print clauses + 0, words + 0 }' "$1"
}

# found_row NAME PROPERTY BOUND: what a row has after its bound, of the proof in $work/proof
found_row() {
    local answer clauses words
    read -r clauses words < <(proof_size "$work/proof")
    answer=$(on "$1" refute "$2" "$3" "$work/proof")
    [ "$answer" = "accepted: $clauses clauses, $words words" ] && answer=accepted
    echo "$(on "$1" size "$2" "$3" | awk '{ s[$1] = $2 } END { print s["n"], s["clauses"], s["words"] }')" \
        "$(solver_name) $clauses $words ${answer// /-}"
}

# check_row ROW..: a solver's proof is the same again; of another version's only the answer is compared. 1 where there is no proof
check_row() {
    local found=() row=("$@")
    prove "$1" "$2" "$3" || return 1
    read -r -a found < <(found_row "$1" "$2" "$3")
    [ "${found[3]}" = "${row[6]}" ] || found[3]=${row[6]} found[4]=${row[7]} found[5]=${row[8]}
    [ "${row[*]:3}" = "${found[*]}" ] || fault "$1, property $2, bound $3: ${found[*]}, expected ${row[*]:3}"
}

damaged=0
still=0
# damage NAME PROPERTY BOUND KIND PART: one clause of the proof in $work/proof, so many parts of a hundred into it, has its first
# literal negated (flip) or is left out (drop); the 100th part is the last clause. With unit it is the first unit clause from there
# on that is negated: that hardly ever follows, so it is soon told. What is said of the copy is what the judge says: it is accepted
# only where the rule still holds.
damage() {
    local clauses text expected place
    clauses=$(proof_size "$work/proof")
    place=$((${clauses% *} * $5 / 100))
    awk -v kind="$4" -v place=$place '
        $1 != "d" && ++n >= place && !done && (kind != "unit" || NF == 2) { done = 1; if (kind == "drop") next; $1 = -$1 }
        { print }' "$work/proof" > "$work/damaged"
    cmp -s "$work/proof" "$work/damaged" && fault "$1, property $2, bound $3: $4 at clause $place changes nothing"
    text=$(on "$1" refute "$2" "$3" "$work/damaged"; echo "exit $?")
    expected=$(stm=$judge; on "$1" refute "$2" "$3" "$work/damaged"; echo "exit $?")
    damaged=$((damaged + 1))
    case $text in accepted*) still=$((still + 1)) ;; esac
    [ "$text" = "$expected" ] || fault "$1, property $2, bound $3, $4 at clause $place: $text, expected $expected"
}

# damage_all NAME PROPERTY BOUND: some of the copies take as long as the whole proof, on both sides
damage_all() {
    damage "$@" flip 25
    damage "$@" drop 25
    damage "$@" drop 75
    damage "$@" drop 100
}
