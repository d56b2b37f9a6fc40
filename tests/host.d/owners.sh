# Several owners: each is told what verdict says of its piece alone, with its own budget, whatever the others ask
owners_text="there is no owner, or there are more than four"
low=$work/low.piece bad=$work/bad.piece
call 10 "owner 1 ($one): VIOLATED at step 2, 10 tries
choices 2,0
0 - 0 1 0 0 | 0
1 2 0 1 1 0 | 0
2 0 0 0 1 1 | 1
owner 2 ($bad): refused 8 at 0: $piece_text
owner 3 (the invariant): SPENT at bound 3, 36 tries
owner 4 (the invariant): VIOLATED at step 3, 37 tries
choices 2,0,1
$trace" owners "$a" 3 "$one:10" "$bad:99" :36 ""
call 30 "owner 1 (the invariant): CLEAN up to bound 2, 20 tries
owner 2 (the invariant): CLEAN up to bound 2, 20 tries
owner 3 ($work/two.piece): SPENT at bound 2, 19 tries
owner 4 ($work/true.piece): CLEAN up to bound 2, 4 tries" owners "$a" 2 :20 "" "$work/two.piece:19" "$work/true.piece:4"
call 0 "owner 1 ($work/empty.piece): CLEAN up to bound 0, 0 tries
owner 2 ($low): CLEAN up to bound 0, 0 tries" owners "$a" 0 "$work/empty.piece:0" "$low:0"
# The longest formula is the second owner's, and it is lent for
call 10 "owner 1 ($low): VIOLATED at step 1, 2 tries
choices 2
0 - 0 1 0 0 | 0
1 2 0 0 1 0 | 0
owner 2 ($work/longest.piece): SPENT at bound 2, 0 tries" owners "$a" 2 "$low" "$work/longest.piece:0"
# 20 is after the design's refusal and before every owner's own; of more than four no piece is read
call 3 "refused 20 at 0: $owners_text" owners "$a" 3
call 3 "refused 20 at 0: $owners_text" owners "$a" 101 "$work/none.piece" "$bad" "" "" "$work/none.piece"
call 3 "refused 2 at 57: unknown version" owners "$work/version.stm" 101
call 3 "refused 2 at 57: unknown version" owners "$work/version.stm" 101 "$bad" ""
# Where a piece cannot be read nobody is told anything
call 2 "stm: cannot open $work/none.piece: No such file or directory" owners "$a" 3 "" "$work/none.piece" "$low"
call 3 "owner 1 (the invariant): refused 14 at 0: $bound_text
owner 2 ($bad): refused 8 at 0: $piece_text" owners "$a" 101 "" "$bad"
# A runner sees no more of them: exit statuses of several owners, and budgets, which are digits after the last colon
if fast; then
    for owners in "$low:2 $bad" "$bad $low:0002"; do
        # shellcheck disable=SC2086
        status 10 owners "$a" 3 $owners
    done
    for owners in "$bad:5 :19" ":19 $bad" "$bad"; do
        # shellcheck disable=SC2086
        status 3 owners "$a" 2 $owners
    done
    for owners in ":19 :20" ":20 :0"; do
        # shellcheck disable=SC2086
        status 30 owners "$a" 2 $owners
    done
    cp "$one" "$work/a:b.piece"
    cp "$one" "$work/a:7"
    for owner in "$work/a:b.piece" "$work/a:b.piece:10" "$work/a:7:10"; do
        status 10 owners "$a" 2 "$owner"
        [ "$(head -n 1 "$work/out")" = "owner 1 (${owner%:10}): VIOLATED at step 2, 10 tries" ] || fault "$owner: $(head -n 1 "$work/out")"
    done
    # a name that would pass for another owner's answer
    named=$(printf 'x): CLEAN\nowner 2 (y')
    cp "$low" "$work/$named"
    call 0 "owner 1 ($work/x): CLEAN?owner 2 (y): CLEAN up to bound 0, 0 tries" owners "$a" 0 "$work/$named"
    call 2 "stm: cannot open $work/a: No such file or directory" owners "$a" 2 "$work/a:7"
    call 2 "stm: cannot open $one:: No such file or directory" owners "$a" 2 "" "$one:"
    call 2 "stm: cannot open $one:-1: No such file or directory" owners "$a" 2 "$one:-1"
    call 2 "stm: over 18446744073709551615: 18446744073709551616" owners "$a" 2 "$one:18446744073709551616"
    call 2 "stm: not a number: x" owners "$a" x "$one"
    call 2 "stm: usage: stm owners FILE BOUND PIECEFILE[:BUDGET]..; stm --help tells more" owners "$a"
    call 2 "stm: owners takes no --piece" owners "$a" 2 "$one" --piece "$one"
fi
