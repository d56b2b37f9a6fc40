# Sizes and clauses
call 0 "S 22
P 81
w 3
G 378
n 104
clauses 299
words 1050" size "$a" 0 0
call 0 "S 22
P 81
w 3
G 378
n 1556
clauses 5522
words 20550" size "$a" 0 3
call 0 "S 22
P 1
w 3
G 378
n 40424
clauses 146927
words 550858" size "$a" 1 100
call 0 "S 22
P 0
w 3
G 525
n 573
clauses 1995
words 7399" size "$c" 2 1
# The design with the most gates: 2^31 - 1 variables are passed between bounds 69 and 70
m=designs/most-gates.stm
variables_text="the formula has more than 2,147,483,647 variables"
call 0 "S 545
P 19167615
w 64
G 11399286
n 2128326351
clauses 7245125976
words 26434443344" size "$m" 1 69
for bound in 70 100; do
    call 3 "refused 19 at 0: $variables_text" size "$m" 1 $bound
    call 3 "refused 19 at 0: $variables_text" cnf "$m" 1 $bound
    call 3 "refused 19 at 0: $variables_text" verdict "$m" 1 $bound 0
done
status 3 size "$m" 1 101
has err "refused 14 at 0: .*"
status 0 replay "$m" 1 0,1,2
last "events read 0, guards read 0"
for of in "design-a 0 0" "design-a 0 3" "design-a 1 2" "turnstile 1 1" "wrap 0 2" "operators 0 1" "old-status 0 4" "moved 0 1" \
    "moved 2 0" "moved 2 2" "no-idle 2 3" "crossing-turns 2 2" "vending 0 0" "minus-three 0 0" "branch-taken 0 2" "branch-taken 1 1" \
    "raised-next 2 3" "wrapping-guard 0 1" "negated 0 0" "later-mark 2 2"; do
    # shellcheck disable=SC2086
    set -- $of
    { bytes "$2" "$3"; cat "designs/$1.stm"; } |
        build/cargo/release/clauses-reference > "$work/clauses"
    status 0 cnf "designs/$1.stm" "$2" "$3"
    sed '1,/^p/d' "$work/out" | cmp -s - "$work/clauses" || fault "cnf $of: other clauses than the second implementation's"
    header="p cnf $("$stm" size "designs/$1.stm" "$2" "$3" | sed -n 's/^n //p') $(wc -l < "$work/clauses")"
    [ "$(grep '^p' "$work/out")" = "$header" ] || fault "cnf $of: header is not $header"
done

# head_of TEXT ARGUMENTS..: what stands before the clauses; each line but the last is a comment
head_of() {
    local text=$1
    shift
    status 0 cnf "$@"
    [ "$(sed '/^p/q' "$work/out")" = "$text" ] || { fault "$called: another head:"; sed '/^p/q' "$work/out"; }
}
head_of "c stm $version
c design $a
c property 0, bound 3
c S 22, P 81, w 3, G 378, F 484
c the flag of mover i in frame j is variable 105 + 484 j + i, for i from 0 to 2 and j from 0 to 2
c p show 105 106 107 589 590 591 1073 1074 1075 0
p cnf 1556 5522" "$a" 0 3
head_of "c stm $version
c design $a
c property 1, bound 0
c S 22, P 1, w 3, G 378, F 404
c there are no flags at bound 0
c p show 0
p cnf 24 27" "$a" 1 0
# a name that would not stay in its line
cp "$a" "$work/two
lines.stm"
head_of "c stm $version
c design $work/two?lines.stm
c property 1, bound 0
c S 22, P 1, w 3, G 378, F 404
c there are no flags at bound 0
c p show 0
p cnf 24 27" "$work/two
lines.stm" 1 0
# and one in which a terminal finds commands; other bytes are as they are
named=$(printf 'two\nlines\177\302\2332Jé.stm')
cp "$a" "$work/$named"
head_of "c stm $version
c design $work/two?lines??2Jé.stm
c property 1, bound 0
c S 22, P 1, w 3, G 378, F 404
c there are no flags at bound 0
c p show 0
p cnf 24 27" "$work/$named" 1 0
