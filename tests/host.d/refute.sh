# Refutations. At bound 0 units alone refute Design A's formula; at bounds 1 and 2 the choices, whose flags are 105 to 107 and 589 to
# 591, are shut out one by one.
proof=$work/proof
# refute STATUS TEXT PROOF ARGUMENTS..: the proof's text as printf takes it, and what stands between refute and PROOF
refute() {
    local status=$1 text=$2
    # shellcheck disable=SC2059
    printf -- "$3" > "$proof"
    shift 3
    call "$status" "$text" refute "$@" "$proof"
}
# bad LINE TEXT PROOF: a proof that cannot be read
bad() {
    refute 2 "stm: $proof, line $1: $2" "$3" "$a" 0 1
}
first='-105 0\n-106 0\n0\n'
second='-105 -589 0\n-105 -590 0\n-105 0\n-106 -589 0\n-106 -590 0\n-106 0\n-589 0\n-590 0\n0\n'
no_text="this is no text. A binary proof is not taken; cadical writes text with --no-binary"
outside="of the proof is none of the formula's"
refute 0 "accepted: 9 clauses, 21 words" "$second" "$a" 0 2
refute 1 "line 5 does not follow" "c by hand\n-105 0\nd -105 0\n\n-1 0\n0\n" "$a" 0 1
refute 1 "ended without an empty clause" "" "$a" 0 1
refute 3 "refused 17 at 7553: a literal in line 3 $outside 588 variables" "-105 0\nd 589 0\n7 589 0\n0\n" "$a" 0 1
bad 2 "no closing 0" "-105 0\n-106"
bad 1 "$no_text" "a\323\001\000"
if fast; then
    # what is accepted: at other bounds, for other properties and pieces, and in other forms of text
    refute 0 "accepted: 1 clauses, 1 words" "0\n" "$a" 0 0
    refute 0 "accepted: 3 clauses, 5 words" "$first" "$a" 0 1
    refute 0 "accepted: 1 clauses, 1 words" "0\n" "$c" 2 1
    refute 0 "accepted: 3 clauses, 5 words" "-24 0\n-25 0\n0\n" "$c" 2 2
    refute 0 "accepted: 3 clauses, 5 words" "$first" "$a" 0 1 --piece "$one"
    refute 0 "accepted: 3 clauses, 5 words" "$first" "$c" 0 --piece "$one" 1
    refute 0 "accepted: 1 clauses, 1 words" "0\n" "$a" --piece "$work/low.piece" 0 0
    refute 0 "accepted: 3 clauses, 5 words" "c\nc 1 2 x \377\nd 1 2 -3 0\n-105 0\n\nd -105 0\n-106 0\n \t\n0\nd 1 0\n" "$a" 0 1
    refute 0 "accepted: 3 clauses, 5 words" "-105 0\r\n\r\nd 105 0\r\nc x\r\n-106 0\r\n0\r\n" "$a" 0 1
    refute 0 "accepted: 3 clauses, 5 words" "  -105\t 0 \n\t-00106 000\n \td\t7 0\n c\n0" "$a" 0 1
    # a clause with a literal and its negation; clauses after the empty one, which follow from nothing
    refute 0 "accepted: 4 clauses, 9 words" "9 -588 -9 0\n-105 0\n-106 0\n0\n" "$a" 0 1
    refute 0 "accepted: 5 clauses, 9 words" "${first}105 0\n-1 0\n" "$a" 0 1
    # a deletion takes nothing away, and a deleted literal may be any number of 32 bits
    refute 0 "accepted: 3 clauses, 5 words" "-105 0\nd -105 0\nd 2147483647 -2147483648 0\n-106 0\nd -106 0\n0\n" "$a" 0 1
    # what is not: the line of the first clause that does not follow, whatever stands before it
    refute 1 "line 1 does not follow" "0\n" "$a" 0 1
    refute 1 "line 1 does not follow" "$first" "$a" 0 2
    refute 1 "line 1 does not follow" "$second" "$a" 0 3
    refute 1 "line 1 does not follow" "0\n" "$c" 2 2
    refute 1 "line 1 does not follow" "0\n" designs/first-state.stm 0 0
    refute 1 "line 1 does not follow" "0\n" "$a" 0 0 --piece "$work/false.piece"
    refute 1 "line 2 does not follow" "-105 0\n-1 0\n0\n" "$a" 0 1
    refute 1 "line 2 does not follow" "-105 0\n0\n-106 0\n0\n" "$a" 0 1
    refute 1 "line 1 does not follow" "107 0\n-105 0\n-106 0\n0\n" "$a" 0 1
    refute 1 "line 7 does not follow" "c\n\nd 0\n-105 0\nd 1 2 0\n 1 -107 106 -1 0\n-1 0\n0\n" "$a" 0 1
    # a literal that stands twice is two positions, so the clause is no unit
    refute 1 "line 3 does not follow" "-105 -105 0\n-106 0\n0\n" "$a" 0 1
    refute 1 "ended without an empty clause" "-105 0\n-106 0\n" "$a" 0 1
    refute 1 "ended without an empty clause" "c none\n\nd 0\n" "$a" 0 0
    refute 1 "ended without an empty clause" "c none" "$a" 0 0
    refute 1 "ended without an empty clause" "\n" "$a" 0 0
    # 17 tests the whole proof, past the accepting clause too; a new variable is refused so
    refute 3 "refused 17 at 1050: a literal in line 1 $outside 104 variables" "$first" "$a" 0 0
    refute 3 "refused 17 at 1051: a literal in line 2 $outside 104 variables" "0\n-105 0\n" "$a" 0 0
    refute 3 "refused 17 at 1052: a literal in line 4 $outside 104 variables" "c\nd 105 0\n0\n1 -2147483648 0\n" "$a" 0 0
    refute 3 "refused 17 at 1050: a literal in line 1 $outside 104 variables" "2147483647 0\n" "$a" 0 0
    # what is no DRAT text
    for text in x 1x +1 - -- --1 1.0 0x1 1,2 -0 -00 d1 dd cc p b 1d -x; do
        bad 1 "not a number: $text" "$text 0\n0\n"
        bad 3 "not a number: $text" "-105 0\n\nd 2 $text 0\n"
    done
    bad 2 "not a number: a" "-105 0\na 1 0\n"
    bad 2 "not a number: d" "-105 0\n1 d 0\n"
    bad 1 "not a number: c" "1 c 0\n"
    for text in 2147483648 -2147483649 4294967297 18446744073709551617 -9999999999999999999999999999999; do
        bad 2 "not a number of 32 bits: $text" "-105 0\n$text 0\n"
        bad 2 "not a number of 32 bits: $text" "c\nd 1 $text 0\n"
    done
    bad 1 "not a number of 32 bits: 12345678901234567890123456789012.." "123456789012345678901234567890123 0\n"
    bad 1 "no closing 0" "1"
    bad 1 "no closing 0" "-105 -106\n0\n"
    bad 2 "no closing 0" "-105 0\nd\n0\n"
    bad 3 "no closing 0" "-105 0\n-106 0\nd 1 \r\n0\n"
    bad 1 "more after the closing 0: 0" "0 0\n"
    bad 2 "more after the closing 0: -106 0" "c\n-105 0 -106 0\n"
    bad 1 "more after the closing 0: c x" "-105 0 c x\n"
    bad 1 "more after the closing 0: 1" "d 1 0 1\n"
    bad 1 "$no_text" "a\xd3\x01\x00"
    bad 1 "$no_text" "a\x0a\x02\x00"
    bad 1 "$no_text" "d\xd3\x01\x00"
    bad 1 "$no_text" "d 1\x7f 0\n"
    bad 2 "$no_text" "-105 0\n\x00\n"
    bad 2 "$no_text" "-105 0\nc \x00\n0\n"
    bad 2 "$no_text" "-105 0\n-106 0\x00"
    bad 1 "$no_text" "-105 0\r-106 0\n0\n"
    bad 1 "$no_text" "-105\x0b0\n"
    # longer than the first memory: a line of 4,000 literals, and 3,000 lines
    long=$(printf '9 -9 %.0s' {1..2000})
    refute 0 "accepted: 4 clauses, 4006 words" "${long}0\n$first" "$a" 0 1
    refute 1 "line 3002 does not follow" "${long}0\n$(printf '1 -1 0\\n%.0s' {1..3000})0\n" "$a" 0 1
    # files, words and numbers; a proof is read before anything is asked of the design
    call 2 "stm: cannot open $work/none: No such file or directory" refute "$a" 0 1 "$work/none"
    call 2 "stm: cannot open $work/none: No such file or directory" refute "$work/version.stm" 9 101 "$work/none"
    call 2 "stm: cannot open : No such file or directory" refute "$a" 0 1 ""
    call 2 "stm: cannot read $work: Is a directory" refute "$a" 0 1 "$work"
    call 2 "stm: cannot read /proc/self/mem: Input/output error" refute "$a" 0 1 /proc/self/mem
    refute 3 "refused 2 at 57: unknown version" "0\n" "$work/version.stm" 0 1
    refute 3 "refused 13 at 0: $property_text" "0\n" "$a" 2 101
    refute 3 "refused 14 at 0: $bound_text" "0\n" "$a" 0 101
    refute 3 "refused 19 at 0: $variables_text" "0\n" "$m" 1 70
    refute 3 "refused 8 at 0: $piece_text" "0\n" "$a" 0 1 --piece "$work/bad.piece"
    refute 0 "accepted: 1 clauses, 1 words" "0\n" "$a" 1 0 --piece "$work/bad.piece"
    call 2 "stm: not a number: x" refute "$a" x 1 "$proof"
    call 2 "stm: not a number: 1x" refute "$a" 0 1x "$work/none"
    for words in "" "$proof 5" "--piece $one"; do
        # shellcheck disable=SC2086
        call 2 "stm: usage: stm refute FILE PROPERTY BOUND PROOF; stm --help tells more" refute "$a" 0 1 $words
    done
fi
