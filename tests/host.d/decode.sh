# Other solvers' models. That of bound 3 is the only one of Design A; SOLVE's own stands in the place of a solver's.
model=$work/model
# decoded STATUS TEXT MODEL ARGUMENTS..: the model's text as printf takes it, and what stands between decode and MODEL
decoded() {
    local status=$1 text=$2
    # shellcheck disable=SC2059
    printf -- "$3" > "$model"
    shift 3
    call "$status" "$text" decode "$@" "$model"
}
ran="choices 2,0,1
$trace
broken at 3
events read 2, guards read 2"
# values BOUND CHOICE..: every literal of a model of Design A, property 0; only the flags are right, which is all that is decoded
values() {
    local bound=$1 n
    shift
    n=$(((bound * 484) + 104))
    awk -v n=$n -v bound="$bound" -v choices="$*" 'BEGIN {
        split(choices, choice)
        for (v = 1; v <= n; v++) {
            j = int((v - 105) / 484); i = v - 105 - 484 * j
            true = v >= 105 && j < bound && i >= 0 && i < 3 && choice[j + 1] == i
            printf "%s%d%s", true ? "" : "-", v, v < n ? " " : ""
        }
    }'
}
good=$(values 3 2 0 1)
decoded 10 "$ran" "c comment\ns SATISFIABLE\nv $good 0\n" "$a" 0 3
decoded 10 "$ran" "SAT\n$good 0\n" "$a" 0 3
decoded 10 "$ran" "v $good\r\nv 0\r\n" "$a" 0 3
decoded 10 "$ran" "s SATISFIABLE\nv ${good// /\\nv }\nv 0\nc x\n" "$a" 0 3
decoded 10 "$ran" "cadical says\n\n  v\t$good 0" "$a" 0 3
# a run that does not break it, also where a solver says that it does
decoded 1 "choices 2
0 - 0 1 0 0 | 0
1 2 0 1 1 0 | 0
holds
events read 0, guards read 0
stm: the run does not break the property, so the model does not satisfy the formula" "v $(values 1 2) 0\n" "$a" 0 1
decoded 1 "choices -
0 - 0 1 0 0 | 0
holds
events read 0, guards read 0
stm: the run does not break the property, so the model does not satisfy the formula" "v $(values 0) 0\n" "$a" 0 0
decoded 3 "refused 18 at 1: a frame has no single flag set" "v $(values 3 2 9 1) 0\n" "$a" 0 3
decoded 2 "stm: $model, line 1: the solver's answer, so there is no model: UNSATISFIABLE" "s UNSATISFIABLE\n" "$a" 0 3
if fast; then
    bad() {
        decoded 2 "stm: $model$1" "$2" "$a" 0 1
    }
    one_step=$(values 1 2)
    bad ", line 2: the solver's answer, so there is no model: UNKNOWN" "c\ns UNKNOWN\n"
    bad ", line 1: the solver's answer, so there is no model: UNSAT" "UNSAT\n"
    bad ", line 1: the solver's answer, so there is no model: INDET" "INDET\n"
    bad ", line 1: the solver's answer, so there is no model: " "s\n"
    bad ": there is no model in it" ""
    bad ": the model has no closing 0" "v $one_step\n"
    bad ": there is no model in it" "s SATISFIABLE\n"
    bad ": variable 588 of 588 has no value" "v ${one_step% *} 0\n"
    bad ": variable 1 of 588 has no value" "v 0\n"
    bad ": variable 2 of 588 has no value" "SAT\n${one_step/ -2 / } 0\n"
    bad ", line 2: a variable that has a value already: 7" "c\nv 7 7 0\n"
    bad ", line 2: a variable that has a value already: -7" "v 7\nv -7 0\n"
    bad ", line 1: a literal of another formula, which has more variables: 589" "v 589 0\n"
    bad ", line 1: a literal of another formula, which has more variables: -2147483648" "v -2147483648 0\n"
    bad ", line 1: not a number of 32 bits: 2147483648" "v 2147483648 0\n"
    bad ", line 1: not a number: x" "v 1 x 0\n"
    bad ", line 1: not a number: -" "v - 0\n"
    bad ", line 1: not a number: 1?" "v 1\001 0\n"
    bad ", line 2: more after the closing 0: 1" "v $one_step 0\nv 1 0\n"
    bad ", line 1: more after the closing 0: 0" "v $one_step 0 0\n"
    bad ", line 1: no line of a model: 1" "1 2 0\n"
    bad ", line 1: no line of a model: V" "V 1 0\n"
    bad ", line 1: no line of a model: p" "p cnf 3 4\n"
    bad ", line 2: this is no text" "v 1\n\000\n"
    # cut off in the middle of a number, which is then another variable's
    bad ", line 1: a variable that has a value already: -58" "v ${one_step%?}"
    # of another bound, design, property or piece
    decoded 2 "stm: $model, line 1: a literal of another formula, which has more variables: -1073" "v $good 0\n" "$a" 0 2
    decoded 2 "stm: $model: variable 1557 of 2040 has no value" "v $good 0\n" "$a" 0 4
    decoded 3 "refused 13 at 0: $property_text" "v 0\n" "$a" 2 1
    decoded 3 "refused 14 at 0: $bound_text" "v 0\n" "$a" 0 101
    decoded 3 "refused 8 at 0: $piece_text" "v 0\n" "$a" 0 1 --piece "$work/bad.piece"
    decoded 10 "choices 2,0,1
$by_one
broken at 2
events read 2, guards read 2" "v $good 0\n" "$a" 0 3 --piece "$one"
    call 2 "stm: cannot open $work/none: No such file or directory" decode "$a" 0 1 "$work/none"
    call 2 "stm: cannot read $work: Is a directory" decode "$a" 0 1 "$work"
    printf 'SAT\n%s 0\n' "$good" > "$model"
    from "$model" 10 "$ran" decode "$a" 0 3 -
fi
