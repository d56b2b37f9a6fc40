# Replay: the trace, what becomes of the property, and the events and guards read
call 10 "$trace
broken at 3
events read 2, guards read 2" replay "$a" 0 2,0,1
call 0 "0 - 0 1 0 0 | 0
1 0 1 1 0 0 | 0
2 1 1 1 0 0 | 0
3 2 0 1 1 0 | 0
holds
events read 1, guards read 0" replay "$a" 0 0,1,2
call 0 "0 - 0 1 0 0 | 0
holds
events read 0, guards read 0" replay "$a" 1 -
call 10 "0 - 0 0 0 0 | 0
broken at 0
events read 0, guards read 0" replay designs/first-state.stm 0 -
call 10 "0 - 0 1 32766 -32767 | 0
1 0 0 1 32767 -32767 | 0
2 0 0 0 -32768 -32767 | 0
3 1 0 0 -32768 -32768 | 0
broken at 2
events read 3, guards read 3" replay designs/wrap.stm 0 0,0,1
# The mark is not shown, but from the step on that sets it no property holds: 1, which no invalid cell breaks, and 2, whose constraint
# is true of that step; a list that is not taken sets none, and neither does a guard
call 10 "0 - 0 1 32766 -32767 | 0
1 0 0 1 32767 -32767 | 0
2 0 0 0 -32768 -32767 | 0
3 1 0 0 -32768 -32768 | 0
broken at 2
events read 3, guards read 3" replay designs/wrap.stm 1 0,0,1
call 10 "0 - 0 1 0 32767 | 0
1 0 0 1 0 32767 | 0
2 1 0 1 1 32767 | 0
3 0 0 0 1 -32768 | 0
4 0 0 0 1 -32767 | 0
broken at 3
events read 3, guards read 3" replay designs/branch-taken.stm 0 0,1,0,0
call 0 "0 - 0 1 32766 | 0
1 0 0 1 32767 | 0
2 0 1 1 32767 | 0
3 1 0 1 0 | 0
holds
events read 3, guards read 3" replay designs/wrapping-guard.stm 0 0,0,1
call 10 "0 - 0 1 0 32766 | 0
1 1 0 1 1 32766 | 0
2 0 0 1 1 32767 | 0
3 0 0 0 1 -32768 | 0
4 1 1 0 1 -32768 | 0
broken at 3
events read 2, guards read 2" replay designs/later-mark.stm 2 1,0,0,1
call 0 "0 - 0 1 | 0 0
1 0 0 1 | 1 0
2 2 1 1 | 1 0
holds
events read 2, guards read 2" replay designs/crossing.stm 0 0,2
# Property 2 is judged step by step: true at step 0 and again past a break, false where an idle step breaks it
call 10 "$trace
4 2 1 1 1 2 | 0
5 0 0 1 1 3 | 1
broken at 3
events read 3, guards read 3" replay "$c" 2 2,0,1,2,0
call 10 "0 - 0 1 0 0 | 0
1 1 0 1 1 0 | 0
2 1 1 0 1 0 | 0
3 0 0 1 1 1 | 0
broken at 2
events read 1, guards read 1" replay designs/no-idle.stm 2 1,1,0
call 0 "0 - 0 1 0 0 | 0
holds
events read 0, guards read 0" replay designs/no-idle.stm 2 -
# Every way that a cell can be tested: a false event, another status, an external, a guard that is true and breaks the property; then
# no guard, no guard, the external, a false guard
call 10 "0 - 0 1 0 1 | 0
1 0 1 1 0 1 | 0
2 1 1 1 0 1 | 0
3 3 0 1 1 1 | 0
4 0 0 0 1 0 | 1
5 1 0 0 0 0 | 1
6 2 0 0 0 0 | 0
7 3 0 0 1 0 | 0
8 0 1 0 1 0 | 0
broken at 4
events read 5, guards read 4" replay designs/barrier.stm 0 0,1,3,0,1,2,3,0
call 3 "refused 13 at 0: $property_text" replay "$c" 3 9
call 3 "refused 12 at 1: a choice is no mover's number" replay "$c" 2 0,3
call 3 "refused 12 at 2: a choice is no mover's number" replay "$a" 0 0,1,3
call 3 "refused 13 at 0: $property_text" replay "$a" 2 9
hundred=$(printf '1,%.0s' {1..99})2
status 0 replay "$a" 0 "$hundred"
last "events read 0, guards read 0"
status 0 replay "$a" 0 "${hundred//1/0}"
last "events read 99, guards read 0"
call 3 "refused 14 at 0: $bound_text" replay "$a" 0 "$hundred,9"
call 3 "refused 14 at 0: $bound_text" replay "$a" 0 "$hundred,$hundred,$hundred"
call 3 "refused 13 at 0: $property_text" replay "$a" 2 "$hundred,9"
call 2 "stm: over 255: 256" replay "$a" 0 0,256
for text in , 0, ,0 0,,1; do
    call 2 "stm: not a number: (empty)" replay "$a" 0 "$text"
done
call 2 "stm: not a number: (empty)" replay "$a" 0 ""
call 2 "stm: not a number: -" replay "$a" 0 -,-
call 2 "stm: not a number: -1" replay "$a" 0 -1
call 2 "stm: not a number: 1 " replay "$a" 0 "1 ,2"

# The trace is the Replay program's, also past a break; the last line has the second implementation's counts
while read -r design property choices; do
    # shellcheck disable=SC2086
    { bytes "$property" "$(wc -w <<< "$choices")" $choices; cat "designs/$design.stm"; } |
        build/cargo/release/replay-reference > "$work/replay"
    expected=0
    grep -q "^broken" "$work/replay" && expected=10
    status $expected replay "designs/$design.stm" "$property" "${choices// /,}"
    sed '$d' "$work/out" | cmp -s - "$work/replay" || fault "replay $design $property $choices: not the Replay program's trace"
    request="replay $(od -An -v -tx1 "designs/$design.stm" | tr -d ' \n') - $property ${choices// /,}"
    last "$(build/cargo/release/serve-reference <<< "$request" | sed 's/^ok [^ ]* \([^ ]*\) /events read \1, guards read /')"
done << END
design-a 0 2 0 1 1 0 2 1
design-a 1 2 0 1 1 0 2 1
moved 0 2 0 1 1 0 2 1
moved 1 2 0 1 1 0 2 1
moved 2 2 0 1 1 0 2 1
no-idle 2 0 1 1 0 0 1 0
raised-next 2 0 1 0 1 1 0 1
crossing-turns 2 0 2 1 2 0 3 3
vending 0 0 1 0 1 1 0 0
minus-three 0 0 0 0 0
minus-three 1 0 0 0 0
minus-three 2 0 0 0 0
branch-taken 0 0 1 0 0 1 0
branch-taken 1 0 1 0 0 1 0
wrapping-guard 0 0 1 0 1 1 0
negated 0 0 1 0 0 0 1 1
negated 1 0 1 1 0 1 1 0
later-mark 0 0 1 0 0 1 0
later-mark 2 0 1 0 0 1 0
money-changer-dyn 2 7 0 7 8 1 4 8 9 6 3 1 4 8 9 6 3 2 0 4 8 1 9 9
barrier 0 2 1 0 3 0 0 1 1 2 2 0 3 0 1
barrier 1 3 0 2 1 2 3 3 0
mutex 0 3 0 4 1 2 2 0 1
long-tests 0 3 2 1 0 0 1 2 3 4 4 9 8
END
