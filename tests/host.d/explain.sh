# Runs told in words, by replay and decode with --explain; sourced.
# Asks for: call, status and bytes (as in tests/host), work (a folder to write to); what is wrong is told, and failed set.
# shellcheck shell=bash

# told LINE..: each stands, whole and in this order, among what the latest call by status printed
told() {
    local line rest
    rest=$(< "$work/out")
    for line in "$@"; do
        case $'\n'$rest$'\n' in
            *$'\n'"$line"$'\n'*) rest=$'\n'$rest$'\n' rest=${rest#*$'\n'"$line"$'\n'} ;;
            *) echo "$called: does not tell, or tells earlier: $line"; failed=1 ;;
        esac
    done
}

names="names: vN is variable N, mN the status of matrix N"
next_names="$names; next vN and next mN are those after the step"
mark_told="  the mark is set (a sum, difference or product passed the end of 16 bits): every property is false from here on"

# Design A: an external, two cells, of which one has no guard
first_a="$names
step 0: the first state
  variable 0, an external, is false
  variable 1, an integer, is 0
  matrix 0 stands in status 0"
told_a="$first_a
step 1: mover 2: the environment raises variable 0
  variable 0 changes from false to true
step 2: mover 0 is cell 0: matrix 0, status 0, event 0, target status 1
  event: v0
  guard: none
  action: v1 := v1 + 1
  variable 1 changes from 0 to 1
  matrix 0 changes from status 0 to status 1"
last_a="step 3: mover 1 is cell 1: matrix 0, status 1, event 0, target status 0
  event: v0
  guard: v1 < 2
  action: v1 := v1 + 1
  variable 1 changes from 1 to 2
  matrix 0 changes from status 1 to status 0"
call 10 "$told_a
$last_a
  here the invariant is false: v1 < 2
broken at 3
events read 2, guards read 2" replay designs/design-a.stm 0 2,0,1 --explain
call 0 "$told_a
$last_a
holds
events read 2, guards read 2" replay --explain designs/design-a.stm 1 2,0,1
call 0 "$first_a
holds
events read 0, guards read 0" replay designs/design-a.stm 0 - --explain
call 2 "stm: --explain and --json do not go together" replay designs/design-a.stm 0 - --explain --json

# A model whose flags are those of 2,0,1
{
    seq 1 1556 | awk '{ print "v " ($1 == 107 || $1 == 589 || $1 == 1074 ? $1 : -$1) }'
    echo "v 0"
} > "$work/explain.model"
call 10 "choices 2,0,1
$told_a
$last_a
  here the invariant is false: v1 < 2
broken at 3
events read 2, guards read 2" decode designs/design-a.stm 0 3 "$work/explain.model" --explain

# A piece in the invariant's place. It is not read for the other properties
bytes 22 2 1 1 1 0 > "$work/below-one.piece"
call 10 "$told_a
  here the piece is false: v1 < 1
$last_a
  property 0 is still false
broken at 2
events read 2, guards read 2" replay designs/design-a.stm 0 2,0,1 --piece "$work/below-one.piece" --explain
call 0 "$told_a
holds
events read 1, guards read 1" replay designs/design-a.stm 1 2,0 --piece "$work/below-one.piece" --explain
status 10 replay designs/peterson.stm 0 4,0 --piece designs/exclusion-flags.piece --explain
told "step 2: mover 0 is cell 0: matrix 0, status 0, event 0, target status 1" "  here the piece is false: not (v0 and v1)" "broken at 2"

# A long expression is cut between two of its signs
long_piece='\020\000'
for _ in 1 2 3 4 5 6 7 8; do long_piece="\\023$long_piece$long_piece"; done
# shellcheck disable=SC2059
printf "$long_piece" > "$work/long-text.piece"
call 10 "$first_a
  here the piece is false: $(printf 'false and %.0s' {1..100})..
broken at 0
events read 0, guards read 0" replay designs/design-a.stm 0 - --piece "$work/long-text.piece" --explain

# False in the first state
call 10 "$names
step 0: the first state
  variable 0, a Boolean, is false
  variable 1, an external, is false
  matrix 0 stands in status 0
  here the invariant is false: v0
broken at 0
events read 0, guards read 0" replay designs/first-state.stm 0 - --explain

# An external behind a Boolean, which is no mover
call 10 "$names
step 0: the first state
  variable 0, a Boolean, is false
  variable 1, an external, is false
  matrix 0 stands in status 0
  here property 1 is false: invalid cell 0 is met: matrix 0, status 0, event 0: true
step 1: mover 0: the environment raises variable 1
  variable 1 changes from false to true
  property 1 is still false
step 2: mover 0: the environment would raise variable 1
  idle: variable 1 is already true
  property 1 is still false
broken at 0
events read 0, guards read 0" replay designs/first-state.stm 1 0,0 --explain

# An invalid cell, which counts among the cells but not among the movers
call 10 "$names
step 0: the first state
  variable 0, an external, is false
  variable 1, an external, is false
  matrix 0 stands in status 0
step 1: mover 3: the environment raises variable 1
  variable 1 changes from false to true
  here property 1 is false: invalid cell 1 is met: matrix 0, status 0, event 1: v1
step 2: mover 2: the environment raises variable 0
  variable 0 changes from false to true
  property 1 is still false
step 3: mover 0 is cell 0: matrix 0, status 0, event 0, target status 1
  event: v0
  guard: none
  action: v0 := false
  variable 0 changes from true to false
  matrix 0 changes from status 0 to status 1
  property 1 is true again
step 4: mover 1 is cell 2: matrix 0, status 1, event 1, target status 0
  event: v1
  guard: none
  action: v1 := false
  variable 1 changes from true to false
  matrix 0 changes from status 1 to status 0
step 5: mover 3: the environment raises variable 1
  variable 1 changes from false to true
  here property 1 is false: invalid cell 1 is met: matrix 0, status 0, event 1: v1
broken at 1
events read 2, guards read 2" replay designs/turnstile.stm 1 3,2,0,1,3 --explain

# Two invalid cells at once, and a cell that runs and changes nothing: an external; a matrix with the event v0, a matrix with v0 and
# not v0; the first two places invalid, the third with an empty action
bytes 2 0 0  1 1 1 2  2 17 0 2 17 0 3 18 17 0  0 0 0 1 0 0 0 0  1 0 0 1 0 0 0 0  1 0 1 0 0 0 1 0 0  16 1 \
    1 0 1 0 3 0 2 0 7 0 17 0 3 0 42 0 > "$work/two-invalid.stm"
call 10 "$names
step 0: the first state
  variable 0, an external, is false
  matrix 0 stands in status 0
  matrix 1 stands in status 0
step 1: mover 0 is cell 2: matrix 1, status 0, event 1, target status 0
  event: not v0
  guard: none
  action: nothing
  runs and changes nothing
step 2: mover 1: the environment raises variable 0
  variable 0 changes from false to true
  here property 1 is false: invalid cell 0 is met: matrix 0, status 0, event 0: v0
  here property 1 is false: invalid cell 1 is met: matrix 1, status 0, event 0: v0
broken at 2
events read 1, guards read 1" replay "$work/two-invalid.stm" 1 0,1 --explain

# Every reason for an idle step: the event, the status, the guard, the external
call 10 "$names
step 0: the first state
  variable 0, an external, is false
  variable 1, an integer, is 1
  matrix 0 stands in status 0
step 1: mover 0 is cell 0: matrix 0, status 0, event 0, target status 1
  event: v0
  guard: 0 < v1
  idle: event 0 is false
step 2: mover 1 is cell 1: matrix 0, status 1, event 0, target status 1
  event: v0
  guard: none
  idle: matrix 0 stands in status 0, not in status 1
step 3: mover 3: the environment raises variable 0
  variable 0 changes from false to true
step 4: mover 0 is cell 0: matrix 0, status 0, event 0, target status 1
  event: v0
  guard: 0 < v1
  action: v1 := v1 - 1
  variable 1 changes from 1 to 0
  matrix 0 changes from status 0 to status 1
  here the invariant is false: 0 < v1
step 5: mover 1 is cell 1: matrix 0, status 1, event 0, target status 1
  event: v0
  guard: none
  action: v0 := false
  variable 0 changes from true to false
  property 0 is still false
step 6: mover 2 is cell 2: matrix 0, status 1, event 1, target status 0
  event: not v0
  guard: none
  action: nothing
  matrix 0 changes from status 1 to status 0
  property 0 is still false
step 7: mover 3: the environment raises variable 0
  variable 0 changes from false to true
  property 0 is still false
step 8: mover 0 is cell 0: matrix 0, status 0, event 0, target status 1
  event: v0
  guard: 0 < v1
  idle: the guard is false
  property 0 is still false
step 9: mover 3: the environment would raise variable 0
  idle: variable 0 is already true
  property 0 is still false
broken at 4
events read 5, guards read 4" replay designs/barrier.stm 0 0,1,3,0,1,2,3,0,3 --explain

# The mark: with the invariant, which is false there, too, and alone
told_wrap="$names
step 0: the first state
  variable 0, an integer, is 32766
  variable 1, an integer, is -32767
  matrix 0 stands in status 0
step 1: mover 0 is cell 0: matrix 0, status 0, event 0, target status 0
  event: true
  guard: none
  action: v0 := v0 + 1
  variable 0 changes from 32766 to 32767
step 2: mover 0 is cell 0: matrix 0, status 0, event 0, target status 0
  event: true
  guard: none
  action: v0 := v0 + 1
  variable 0 changes from 32767 to -32768
$mark_told"
last_wrap="step 3: mover 1 is cell 1: matrix 0, status 0, event 1, target status 0
  event: true
  guard: none
  action: v1 := v1 - 1
  variable 1 changes from -32767 to -32768"
call 10 "$told_wrap
  here the invariant is false: v1 < v0
$last_wrap
  property 0 is still false
broken at 2
events read 3, guards read 3" replay designs/wrap.stm 0 0,0,1 --explain
call 10 "$told_wrap
  here property 1 is false through the mark alone: no invalid cell is met
$last_wrap
  property 1 is still false
broken at 2
events read 3, guards read 3" replay designs/wrap.stm 1 0,0,1 --explain
# A property's difference wraps, too, and sets no mark: -32767 - 2 is 32767
bytes 22 5 2 1 1 2 0 1 0 0 > "$work/wrapping.piece"
call 10 "$names
step 0: the first state
  variable 0, an integer, is 32766
  variable 1, an integer, is -32767
  matrix 0 stands in status 0
  here the piece is false: v1 - 2 < 0
broken at 0
events read 0, guards read 0" replay designs/wrap.stm 0 - --piece "$work/wrapping.piece" --explain
status 10 replay designs/branch-taken.stm 0 0,1,0 --explain
told "  runs and changes nothing" "  action: if v0 then {v1 := v1 + 1}" "  variable 1 changes from 32767 to -32768" "$mark_told" \
    "  here property 0 is false through the mark alone: the invariant itself is true: true" "broken at 3"

# A constraint: false through the mark alone; false at an idle step and true again
call 10 "$next_names
step 0: the first state
  variable 0, an external, is false
  variable 1, an integer, is 32766
  matrix 0 stands in status 0
step 1: mover 1: the environment raises variable 0
  variable 0 changes from false to true
step 2: mover 0 is cell 0: matrix 0, status 0, event 0, target status 0
  event: v0
  guard: none
  action: v1 := v1 + 1
  variable 1 changes from 32766 to 32767
step 3: mover 0 is cell 0: matrix 0, status 0, event 0, target status 0
  event: v0
  guard: none
  action: v1 := v1 + 1
  variable 1 changes from 32767 to -32768
$mark_told
  here property 2 is false through the mark alone: the constraint itself is true: next v1 = v1 + 1 or next v1 = v1
step 4: mover 1: the environment would raise variable 0
  idle: variable 0 is already true
  property 2 is still false
broken at 3
events read 2, guards read 2" replay designs/later-mark.stm 2 1,0,0,1 --explain
call 10 "$next_names
step 0: the first state
  variable 0, an external, is false
  variable 1, an integer, is 0
  matrix 0 stands in status 0
step 1: mover 1: the environment raises variable 0
  variable 0 changes from false to true
step 2: mover 1: the environment would raise variable 0
  idle: variable 0 is already true
  here the constraint is false: not (v1 = next v1 and ((v0 and next v0) or (not v0 and not next v0)))
step 3: mover 0 is cell 0: matrix 0, status 0, event 0, target status 0
  event: v0
  guard: none
  action: v1 := v1 + 1
  variable 1 changes from 0 to 1
  property 2 is true again
broken at 2
events read 1, guards read 1" replay designs/no-idle.stm 2 1,1,0 --explain

# Actions that read a status, and ifs in one another
call 10 "$names
step 0: the first state
  variable 0, an integer, is -1
  matrix 0 stands in status 0
step 1: mover 0 is cell 0: matrix 0, status 0, event 0, target status 1
  event: true
  guard: none
  action: v0 := m0
  variable 0 changes from -1 to 0
  matrix 0 changes from status 0 to status 1
step 2: mover 1 is cell 1: matrix 0, status 1, event 0, target status 2
  event: true
  guard: none
  action: v0 := m0
  variable 0 changes from 0 to 1
  matrix 0 changes from status 1 to status 2
step 3: mover 2 is cell 2: matrix 0, status 2, event 0, target status 2
  event: true
  guard: none
  action: v0 := m0
  variable 0 changes from 1 to 2
  here the invariant is false: v0 < m0
broken at 3
events read 3, guards read 3" replay designs/old-status.stm 0 0,1,2 --explain
ifs="v1 := v1 + 7; if v1 < 10 then {v2 := 0} else {if not (v1 < 20) then {if v1 < 25 then {v2 := 2} else"
ifs="$ifs {if v1 = 28 then {v2 := 3; v3 := v2 = 3} else {v2 := 4}}} else {v2 := 1}}"
status 10 replay designs/nested-ifs.stm 0 1,0,0,0 --explain
told "step 2: mover 0 is cell 0: matrix 0, status 0, event 0, target status 0" "  event: v0" "  guard: none" "  action: $ifs" \
    "  variable 1 changes from 7 to 14" "  variable 2 changes from 0 to 1" "  variable 1 changes from 14 to 21" \
    "  variable 2 changes from 1 to 2" "  action: $ifs" "  variable 1 changes from 21 to 28" "  variable 2 changes from 2 to 3" \
    "  variable 3 changes from false to true" "  here the invariant is false: not v3" "broken at 4"

# Every operator, and where parentheses stand
status 10 replay designs/operators.stm 0 2,0,1 --explain
told "  event: v0 and true" "  guard: v2 = v3 + 5" "  action: v3 := v2 - m0; v1 := v2 < v3; v0 := false" "  event: v0 or not v1" \
    "  guard: (false or not v1) and -3 < v3" "  action: v2 := v3 - 7 + m0" "  variable 2 changes from 3 to -3" \
    "  here the invariant is false: v1 or not (v2 - v3 = m0 + -6)" "broken at 3"
status 10 replay designs/minus-three.stm 2 0,0,0 --explain
told "  action: v0 := -3 * v0; v1 := not v1" "  variable 0 changes from 11700 to 30436" "$mark_told" \
    "  here property 2 is false through the mark alone: the constraint itself is true: next v0 = -3 * v0" "broken at 3"
# A difference on the right of another, a product of a sum, a not of a not
bytes 19 22 5 2 1 5 2 1 2 1 8 2 0 4 2 1 1 1 0 18 18 21 3 0 1 1 0 > "$work/grouped.piece"
call 10 "$first_a
  here the piece is false: v1 - (v1 - v1) < 2 * (v1 + 1) and not (not (m0 = 1))
broken at 0
events read 0, guards read 0" replay designs/design-a.stm 0 - --piece "$work/grouped.piece" --explain

# A long run: the Money-Changer, which breaks DYN at 21, and meets an invalid cell there
status 10 replay designs/money-changer-dyn.stm 2 7,0,7,8,1,4,8,9,6,3,1,4,8,9,6,3,2,0,4,8,1 --explain
told "$next_names" "step 2: mover 0 is cell 0: matrix 0, status 0, event 0, target status 1" "  action: v6 := v6 + 20000; v0 := false" \
    "step 9: mover 6 is cell 8: matrix 1, status 1, event 1, target status 0" "  guard: not (v5 = 0)" \
    "  variable 5 changes from 10000 to 0" "step 21: mover 1 is cell 1: matrix 0, status 1, event 1, target status 2" \
    "  here the constraint is false: not (m0 = 1 and next m0 = 2) or next m1 = 0" "broken at 21" "events read 13, guards read 13"
status 10 replay designs/money-changer-dyn.stm 1 7,0,7,8,1,4,8,9,6,3,1,4,8,9,6,3,2,0,4,9,5 --explain
told "step 21: mover 5 is cell 7: matrix 1, status 1, event 1, target status 0" \
    "  here property 1 is false: invalid cell 3 is met: matrix 0, status 1, event 2: v4" "broken at 21"
