# Pieces: c < 1, c < 2, which is Design A's own invariant, and the external is false
printf '\026\002\001\001\001\000' > "$work/one.piece"
printf '\026\002\001\001\002\000' > "$work/two.piece"
printf '\022\021\000' > "$work/low.piece"
one=$work/one.piece
by_one=${trace/2 0 0 1/2 0 0 0}
call 10 "$by_one
broken at 2
events read 2, guards read 2" replay "$a" 0 2,0,1 --piece "$one"
call 10 "$by_one
broken at 2
events read 2, guards read 2" replay "$a" 0 --piece "$one" 2,0,1
call 10 "$by_one
broken at 2
events read 2, guards read 2" replay "$a" --piece "$one" 0 2,0,1
call 10 "$trace
broken at 3
events read 2, guards read 2" replay "$a" 0 2,0,1 --piece "$work/two.piece"
# Past a break the piece may hold again; an idle step is judged, too
call 10 "0 - 0 1 0 1 | 0
1 3 0 0 1 1 | 0
2 3 1 0 1 1 | 0
3 0 0 0 1 0 | 1
4 1 0 1 0 0 | 1
broken at 1
events read 2, guards read 2" replay designs/barrier.stm 0 3,3,0,1 --piece "$work/low.piece"
# A property of one state that is false at step 0, and one that is true: only the mark breaks it
printf '\020\000' > "$work/false.piece"
printf '\020\001' > "$work/true.piece"
call 10 "0 - 0 1 32766 -32767 | 0
1 1 0 1 32766 -32768 | 0
2 1 0 0 32766 32767 | 0
3 0 0 0 32767 32767 | 0
broken at 2
events read 3, guards read 3" replay designs/wrap.stm 0 1,1,0 --piece "$work/true.piece"
call 10 "0 - 0 0 0 0 | 0
broken at 0
events read 0, guards read 0" replay "$a" 0 - --piece "$work/false.piece"
call 0 "0 - 0 1 0 0 | 0
holds
events read 0, guards read 0" replay designs/first-state.stm 0 - --piece "$work/true.piece"
call 10 "VIOLATED at step 0, 0 tries
choices -
0 - 0 0 0 0 | 0" verdict "$a" 0 5 0 --piece "$work/false.piece"
call 10 "VIOLATED at step 1, 2 tries
choices 2
0 - 0 1 0 0 | 0
1 2 0 0 1 0 | 0" verdict "$a" --piece "$work/low.piece" 0 3
call 10 "VIOLATED at step 3, 37 tries
choices 2,0,1
$trace" verdict "$a" 0 4 --piece "$work/two.piece" 37
call 0 "S 22
P 1
w 3
G 378
n 24
clauses 27
words 58" size "$a" 0 0 --piece "$work/low.piece"
# The formula of the piece that is the design's own invariant, and of another one; the piece is named in the head
formula() {
    status 0 cnf "$@"
    sed '1,/^p/d' "$work/out" > "$work/clauses"
}
formula "$a" 0 1
cp "$work/clauses" "$work/own.cnf"
formula "$a" 0 1 --piece "$work/two.piece"
cmp -s "$work/clauses" "$work/own.cnf" || fault "cnf: another formula for the invariant as a piece"
has out "c piece $work/two.piece"
formula "$a" 0 1 --piece "$work/low.piece"
cmp -s "$work/clauses" "$work/own.cnf" && fault "cnf: the invariant's formula for another piece"
formula "$a" 1 1 --piece "$work/low.piece"
! grep -q "^c piece" "$work/out" || fault "cnf: a piece is named that is not read"
# An empty piece is none, and other properties do not read one
: > "$work/empty.piece"
call 10 "$trace
broken at 3
events read 2, guards read 2" replay "$a" 0 2,0,1 --piece "$work/empty.piece"
printf '\377' > "$work/bad.piece"
printf '\027\000' > "$work/next.piece"
{ cat "$one"; printf '\000'; } > "$work/more.piece"
head -c 20000 /dev/zero > "$work/long.piece"
for piece in bad next more long; do
    for command in "replay $c 0 2,0,1" "size $c 0 1" "cnf $c 0 1" "verdict $c 0 3" "verdict $c 0 101" "size $c 0 101"; do
        # shellcheck disable=SC2086
        call 3 "refused 8 at 0: $piece_text" $command --piece "$work/$piece.piece"
    done
    call 3 "refused 13 at 0: $property_text" size "$c" 3 101 --piece "$work/$piece.piece"
    call 3 "refused 2 at 57: unknown version" size "$work/version.stm" 0 1 --piece "$work/$piece.piece"
    call 0 "CLEAN up to bound 3, 20 tries" verdict "$c" 1 3 --piece "$work/$piece.piece"
    call 10 "VIOLATED at step 3, 13 tries
choices 2,0,1
$trace" verdict "$c" 2 5 --piece "$work/$piece.piece"
done
call 3 "refused 14 at 0: $bound_text" verdict "$c" 0 101 --piece "$one"
call 3 "refused 12 at 1: a choice is no mover's number" replay "$c" 0 0,3 --piece "$one"
# An expression of 16,384 bytes, built by ands of a tree of 4^i constants and the expression of 4^i bytes; then its negation
printf '\020\001' > "$work/tree"
printf '\022\022\020\001' > "$work/longest.piece"
for _ in {1..6}; do
    for _ in 1 2; do
        { printf '\023'; cat "$work/tree" "$work/tree"; } > "$work/next"
        mv "$work/next" "$work/tree"
    done
    { printf '\023'; cat "$work/tree" "$work/longest.piece"; } > "$work/next"
    mv "$work/next" "$work/longest.piece"
done
{ printf '\022'; cat "$work/longest.piece"; } > "$work/over.piece"
call 0 "S 22
P 5461
w 3
G 378
n 5484
clauses 16407
words 54658" size "$a" 0 0 --piece "$work/longest.piece"
call 3 "refused 8 at 0: $piece_text" size "$a" 0 0 --piece "$work/over.piece"
call 2 "stm: check takes no --piece" check "$a" --piece "$one"
call 2 "stm: --piece needs PIECEFILE" verdict "$a" 0 3 --piece
call 2 "stm: --piece stands twice" verdict "$a" 0 3 --piece "$one" --piece "$one"
call 10 "$by_one
broken at 2
events read 2, guards read 2" replay --piece "$one" "$a" 0 2,0,1
call 2 "stm: usage: stm size FILE PROPERTY BOUND; stm --help tells more" size "$a" 0 --piece "$one"
call 2 "stm: unknown option: --pieces; stm --help lists them" size "$a" 0 1 --pieces "$one"
call 2 "stm: cannot open $work/none.piece: No such file or directory" size "$a" 0 1 --piece "$work/none.piece"
call 2 "stm: cannot open : No such file or directory" size "$a" 1 1 --piece ""
call 2 "stm: cannot read $work: Is a directory" size "$a" 0 1 --piece "$work"
