# Formulas of up to so many words are short.
short=21000

# followed_alike STATUS BOUNDS TRIES ARGUMENTS..: with --progress, which asks bound by bound, the latest call answers the same; so many
# bounds are told, whose tries come to so many
followed_alike() {
    local expected=$1 sums="$2 bounds, $3 tries"
    shift 3
    cp "$work/out" "$work/plain"
    status "$expected" "$@" --progress
    cmp -s "$work/out" "$work/plain" || { fault "$called: another answer than without:"; head -n 1 "$work/out"; }
    [ "$(awk '$3 != "over" { bounds++; tries += $4 } END { print bounds " bounds, " tries " tries" }' "$work/err")" = "$sums" ] ||
        { fault "$called: not $sums in all:"; cat "$work/err"; }
}

# rows FILE: every stored row of a table, and its choices replayed; where its formula is short also with --progress. A row's first word
# is a design, or a design and a piece, which are joined by +.
rows() {
    local file property bound budget verdict at tries words choices expected line rows=0
    while read -r file property bound budget verdict at tries _ _ words _ choices _; do
        case $file in "" | \#*) continue ;; esac
        rows=$((rows + 1))
        budget=${budget#-}
        local piece=()
        case $file in *+*) piece=(--piece "designs/${file#*+}") ;; esac
        case $verdict in
        CLEAN) expected=0 line="CLEAN up to bound $bound, $tries tries" ;;
        VIOLATED) expected=10 line="VIOLATED at step $at, $tries tries" ;;
        SPENT) expected=30 line="SPENT at bound $at, $tries tries" ;;
        REFUSED) expected=3 line="refused $at at 0: $piece_text" ;;
        *) expected=0 line="a row of an unknown verdict" ;;
        esac
        # shellcheck disable=SC2086
        status $expected verdict "designs/${file%+*}" "$property" "$bound" $budget "${piece[@]}"
        [ "$(cat "$work/out" "$work/err" | head -n 1)" = "$line" ] || fault "row $file $property $bound: $(head -n 1 "$work/out")"
        # shellcheck disable=SC2086
        [ $expected = 3 ] || [ "$words" -gt "$short" ] || followed_alike $expected $((${at/-/$bound} + 1)) "$tries" \
            verdict "designs/${file%+*}" "$property" "$bound" $budget "${piece[@]}"
        if [ $expected = 10 ]; then
            status 10 replay "designs/${file%+*}" "$property" "$choices" "${piece[@]}"
            grep -qx "broken at $at" "$work/out" || fault "$file: $choices does not break at $at"
        fi
    done < "$1"
    [ "$rows" -gt 0 ] || fault "there are no stored rows in $1"
}

# size_of FILE PROPERTY BOUND N CLAUSES WORDS: the sizes of a stored row's formula
size_of() {
    local piece=() found
    case $1 in *+*) piece=(--piece "designs/${1#*+}") ;; esac
    status 0 size "designs/${1%+*}" "$2" "$3" "${piece[@]}"
    found=$(awk '{ size[$1] = $2 } END { print size["n"], size["clauses"], size["words"] }' "$work/out")
    [ "$4 $5 $6" = "$found" ] || fault "row $1 $2 $3: $found, stored $4 $5 $6"
}

# published_rows FILE: of every stored row that the search does not reach, the sizes, and the choices replayed
published_rows() {
    local file property bound verdict at n clauses words choices rows=0
    while read -r file property bound _ verdict at _ n clauses words _ choices _; do
        case $file in "" | \#*) continue ;; esac
        rows=$((rows + 1))
        size_of "$file" "$property" "$bound" "$n" "$clauses" "$words"
        local piece=()
        case $file in *+*) piece=(--piece "designs/${file#*+}") ;; esac
        status 10 replay "designs/${file%+*}" "$property" "$choices" "${piece[@]}"
        [ "$verdict $at" = "VIOLATED $bound" ] || fault "row $file $property $bound: $verdict $at"
        has out "broken at $at"
    done < "$1"
    [ "$rows" -gt 0 ] || fault "there are no stored rows in $1"
}

# refuted_rows FILE: the sizes of every stored row of a refutation; each is accepted, and some script asks it again
refuted_rows() {
    local file property bound n clauses words answer by rows=0
    while read -r file property bound n clauses words _ _ _ answer by; do
        case $file in "" | \#*) continue ;; esac
        rows=$((rows + 1))
        size_of "$file" "$property" "$bound" "$n" "$clauses" "$words"
        case $answer,$by in
        accepted,solvers | accepted,certify) ;;
        *) fault "row $file $property $bound: $answer by $by" ;;
        esac
    done < "$1"
    [ "$rows" -gt 0 ] || fault "there are no stored rows in $1"
}

# owners_call: the owners that were read last, in one call: each is told its own line, and the exit status is the gravest
owners=() told="" gravest=0
owners_call() {
    [ ${#owners[@]} -gt 0 ] || return
    status "$gravest" owners "$design" "$bound_of_all" "${owners[@]}"
    [ "$(grep '^owner ' "$work/out" | sed 's/^owner [0-9]* ([^)]*): //')" = "${told%$'\n'}" ] ||
        { echo "$called: other answers than the rows':"; cat "$work/out"; failed=1; }
    groups=$((groups + 1)) owners=() told="" gravest=0
}

# graver STATUS: of several owners 10 is before 3, and 3 before 30
graver() {
    case $gravest,$1 in 0,* | 30,3 | *,10) gravest=$1 ;; esac
}

# owners_rows FILE: the rows of a table that stand together are the owners of one call.
owners_rows() {
    local file bound budget verdict at tries design bound_of_all groups=0 piece
    while read -r file _ bound budget verdict at tries _; do
        case $file in "" | \#*) owners_call; continue ;; esac
        design=designs/${file%+*} bound_of_all=$bound piece=""
        case $file in *+*) piece=designs/${file#*+} ;; esac
        budget=${budget#-}
        owners+=("$piece${budget:+:$budget}")
        case $verdict in
        CLEAN) told+="CLEAN up to bound $bound, $tries tries"$'\n' ;;
        VIOLATED) told+="VIOLATED at step $at, $tries tries"$'\n' && graver 10 ;;
        SPENT) told+="SPENT at bound $at, $tries tries"$'\n' && graver 30 ;;
        REFUSED) told+="refused $at at 0: $piece_text"$'\n' && graver 3 ;;
        esac
    done < "$1"
    owners_call
    [ "$groups" -gt 0 ] || fault "there are no owners in $1"
}

# A runner would take too long for these.
if fast; then
    rows designs/rows.txt
    rows designs/rows-pieces.txt
    rows designs/rows-owners.txt
    owners_rows designs/rows-owners.txt
    published_rows designs/rows-published.txt
    refuted_rows designs/rows-refuted.txt
fi
