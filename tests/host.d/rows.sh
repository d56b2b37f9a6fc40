# shellcheck shell=bash disable=SC2034,SC2154
# stm rows: another tool's table, judged row by row. Sourced by tests/host.

# judged STATUS TEXT TABLE [OPTIONS..]: the table as printf has it. A runner, which is slow, sees one table in eight.
tables=0
judged() {
    local expected=$1 text=$2
    tables=$((tables + 1))
    [ ${#runner[@]} = 0 ] || [ $((tables % 8)) = 1 ] || return 0
    # shellcheck disable=SC2059
    printf -- "$3" > "$folder/results.csv"
    shift 3
    call "$expected" "$text" rows "$folder/results.csv" "$@"
    # what is wrong with the whole table stands on standard error, and what is said of its rows on standard output
    case $text in
    "stm: "*) [ ! -s "$work/out" ] || fault "$called: misuse with something on standard output" ;;
    *) [ -s "$work/out" ] || fault "$called: no row on standard output" ;;
    esac
}

# one STATUS TEXT ROW [OPTIONS..]: a table of one row, and what is said of it; the last line follows from the status
one() {
    local expected=$1 text=$2 row=$3 counts
    shift 3
    case $expected in
    0) counts="1 agree, 0 differ, 0 not judged, 0 bad" ;;
    1) counts="0 agree, 1 differ, 0 not judged, 0 bad" ;;
    30) counts="0 agree, 0 differ, 1 not judged, 0 bad" ;;
    *) counts="0 agree, 0 differ, 0 not judged, 1 bad" ;;
    esac
    judged "$expected" "row 1: $text
1 row: $counts" "$row" "$@"
}

# faulty TEXT TABLE [OPTIONS..]: a table that is not judged at all
faulty() {
    local text=$1
    shift
    judged 2 "stm: $text" "$@"
}

folder=$work/rows
mkdir -p "$folder/own" "$folder/none" "$folder/other"
table=$folder/results.csv
cp "$a" "$folder/renamed.stm"
ln -s /dev/null "$folder/proof"
cp designs/mutex.stm "$folder/other/design-a.stm"
cp "$a" "$folder/own/"
# c < 1, which breaks at step 2, and no expression
printf '\026\002\001\001\001\000' > "$folder/rows-one.piece"
printf '\377' > "$folder/rows-bad.piece"
: > "$folder/rows-empty.piece"
head -c 15 "$a" > "$folder/rows-short.stm"
printf -- '-105 0\n-106 0\n0\n' > "$folder/first.drat"
printf -- '-105 -589 0\n-105 -590 0\n-105 0\n-106 -589 0\n-106 -590 0\n-106 0\n-589 0\n-590 0\n0\n' > "$folder/second.drat"
printf -- '-105 0\n' > "$folder/ended.drat"
printf -- '-105 0\n0\n' > "$folder/wrong.drat"
printf -- '-105\n' > "$folder/broken.drat"
printf -- '9999 0\n' > "$folder/outside.drat"

# Tables: with a header and without, in another order, with other columns, in quotes, with CRLF, blank lines, a byte order mark, no end
both="row 1: design-a.stm 0 3 VIOLATED 3: agrees (reference row, witness)
row 2: mutex.stm 0 3 CLEAN: agrees (reference row)
2 rows: 2 agree, 0 differ, 0 not judged, 0 bad"
headed=${both/row 2:/row 3:}
headed=${headed/row 1:/row 2:}
plain='design-a.stm,0,3,VIOLATED,3,"2,0,1",\nmutex.stm,0,3,CLEAN\n'
judged 0 "$both" "$plain"
judged 0 "$both" "${plain//\\n/\\r\\n}"
judged 0 "$both" 'design-a.stm,0,3,VIOLATED,3,"2,0,1"\nmutex.stm,0,3,CLEAN'
judged 0 "$both" 'design-a.stm,0,3,VIOLATED,3,"2,0,1"\r\nmutex.stm,0,3,CLEAN\r'
judged 0 "$both" '\357\273\277design-a.stm,0,3,VIOLATED,3,"2,0,1"\nmutex.stm,0,3,CLEAN,,,\n'
judged 0 "$both" '\357\273\277"design-a.stm","0","3","VIOLATED","3","2,0,1",""\n"mutex.stm","0","3","CLEAN","-","-","-"\n'
judged 0 "$both" ' design-a.stm ,\t0, 3 ,violated,3 , "2,0,1" ,\n" mutex.stm ",0,3,Clean, - , ,\t-\n'
judged 0 "$headed" "file,property,bound,verdict,step,choices,proof\\n$plain"
judged 0 "$headed" " File ,\"PROPERTY\",bound,Verdict,step,choices,proof\\n$plain"
judged 0 "${headed/row 3:/row 4:}
stm: a column that is not read: tool
stm: a column that is not read: a \"note\"
stm: a column that is not read: tool" 'tool,choices,verdict,bound,"a ""note""",property,file,step,tool
x,"2,0,1",VIOLATED,3,"a,\n""b",0,design-a.stm,3,x\nx,,CLEAN,3,"",0,mutex.stm\n'
judged 0 "row 3: design-a.stm 0 3 VIOLATED 3: agrees (reference row)
row 7: mutex.stm 0 3 CLEAN: agrees (reference row)
2 rows: 2 agree, 0 differ, 0 not judged, 0 bad" '\n  \ndesign-a.stm,0,3,VIOLATED,3\n\r\n\t\n""\nmutex.stm,0,3,CLEAN\n\n'
call 0 "$both" rows - < <(printf 'design-a.stm,0,3,VIOLATED,3,"2,0,1"\nmutex.stm,0,3,CLEAN\n')
judged 2 "row 1: design-a.stm 0 3 VIOLATED 3: agrees (reference row)
row 2: design-a.stm 0 3 CLEAN: differs (our rows say VIOLATED at step 3)
row 3: design-a.stm 0 3 SPENT: not judged (SPENT claims nothing)
row 4: bad: no such verdict: FINE
row 5: design-a.stm 0 2 CLEAN: agrees (reference row)
5 rows: 2 agree, 1 differ, 1 not judged, 1 bad" 'design-a.stm,0,3,VIOLATED,3
design-a.stm,0,3,CLEAN\ndesign-a.stm,0,3,SPENT\ndesign-a.stm,0,3,FINE\ndesign-a.stm,0,2,CLEAN\n'
judged 1 "row 1: design-a.stm 0 3 CLEAN: differs (our rows say VIOLATED at step 3)
row 2: design-a.stm 0 3 SPENT: not judged (SPENT claims nothing)
2 rows: 0 agree, 1 differ, 1 not judged, 0 bad" 'design-a.stm,0,3,CLEAN\ndesign-a.stm,0,3,SPENT\n'
judged 2 '{"type":"row","row":2,"file":"design-a.stm","property":0,"bound":3,"verdict":"VIOLATED","step":3,"result":"agrees","why":"reference row, witness"}
{"type":"row","row":3,"file":"design-a.stm","property":0,"bound":3,"verdict":"CLEAN","step":null,"result":"differs","why":"our rows say VIOLATED at step 3"}
{"type":"row","row":4,"file":"\"x\u0007","property":null,"bound":null,"verdict":null,"step":null,"result":"bad","why":"not a number: y"}
{"type":"row","row":5,"file":"design-a.stm","property":0,"bound":101,"verdict":"SPENT","step":null,"result":"bad","why":"refused 14 at 0: the bound, or the number of choices, is over 100"}
{"type":"row","row":6,"file":"design-a.stm","property":0,"bound":9,"verdict":"SPENT","step":null,"result":"not judged","why":"SPENT claims nothing"}
{"type":"rows","rows":5,"agrees":1,"differs":1,"not_judged":1,"bad":2}' 'file,property,bound,verdict,step,choices
design-a.stm,0,3,VIOLATED,3,"2,0,1"\ndesign-a.stm,0,3,CLEAN\n"""x\007",y,0,CLEAN\ndesign-a.stm,0,101,SPENT\ndesign-a.stm,0,9,SPENT\n' --json

# Our rows: verdict and step, at other bounds too
one 0 "design-a.stm 0 77 VIOLATED: agrees (reference row)" 'design-a.stm,0,77,VIOLATED\n'
one 0 "design-a.stm 0 1 CLEAN: agrees (reference row)" 'design-a.stm,0,1,CLEAN\n'
one 0 "peterson.stm 0 17 CLEAN: agrees (reference row)" 'peterson.stm,0,17,CLEAN\n'
one 0 "money-changer-revised-fstc1.stm 0 50 VIOLATED 5: agrees (reference row)" 'money-changer-revised-fstc1.stm,0,50,VIOLATED,5\n'
one 1 "peterson.stm 0 20 VIOLATED: differs (our rows say CLEAN)" 'peterson.stm,0,20,VIOLATED\n'
one 1 "peterson.stm 0 100 VIOLATED 19: differs (our rows say CLEAN up to bound 20)" 'peterson.stm,0,100,VIOLATED,19\n'
one 1 "design-a.stm 0 2 VIOLATED 2: differs (our rows say CLEAN)" 'design-a.stm,0,2,VIOLATED,2\n'
one 1 "design-a.stm 0 9 VIOLATED 2: differs (our rows say VIOLATED at step 3)" 'design-a.stm,0,9,VIOLATED,2\n'
one 1 "design-a.stm 0 9 VIOLATED 4: differs (our rows say VIOLATED at step 3)" 'design-a.stm,0,9,VIOLATED,4\n'
one 1 "design-a.stm 0 9 CLEAN: differs (our rows say VIOLATED at step 3)" 'design-a.stm,0,9,CLEAN\n'
one 1 "first-state.stm 0 0 CLEAN: differs (our rows say VIOLATED at step 0)" 'first-state.stm,0,0,CLEAN\n'
one 30 "peterson.stm 0 21 CLEAN: not judged (no reference row reaches it; give a proof)" 'peterson.stm,0,21,CLEAN\n'
one 30 "peterson.stm 0 21 VIOLATED 21: not judged (no reference row reaches it; give choices)" 'peterson.stm,0,21,VIOLATED,21\n'
one 30 "peterson.stm 0 21 SPENT: not judged (SPENT claims nothing)" 'peterson.stm,0,21,spent,x,y,none.drat\n'

# A design is known by its bytes
one 0 "renamed.stm 0 3 VIOLATED 3: agrees (reference row)" 'renamed.stm,0,3,VIOLATED,3\n'
one 1 "renamed.stm 0 3 CLEAN: differs (our rows say VIOLATED at step 3)" 'renamed.stm,0,3,CLEAN\n'
one 0 "$PWD/$a 0 3 VIOLATED 3: agrees (reference row)" "$PWD/$a,0,3,VIOLATED,3\\n"
one 0 "other/design-a.stm 0 4 VIOLATED 4: agrees (reference row)" 'other/design-a.stm,0,4,VIOLATED,4\n'
{ head -c 51 "$a"; printf '\026\002\001\001\003\000'; tail -c 16 "$a"; } > "$folder/turnstile.stm"
one 30 "turnstile.stm 1 1 VIOLATED 1: not judged (no reference row reaches it; give choices)" 'turnstile.stm,1,1,VIOLATED,1\n'
one 30 "turnstile.stm 0 4 CLEAN: not judged (no reference row reaches it; give a proof)" 'turnstile.stm,0,4,CLEAN\n'
one 0 "turnstile.stm 0 4 VIOLATED: agrees (witness)" 'turnstile.stm,0,4,VIOLATED,,"2,0,1,0"\n'
rm "$folder/turnstile.stm"

# Pieces
revised=money-changer-revised-dyn.stm
one 0 "$revised+money-changer-fstc2.piece 0 9 VIOLATED 4: agrees (reference row, witness)" \
    "$revised+money-changer-fstc2.piece,0,9,VIOLATED,4,\"8,7,0,1\"\\n"
one 1 "$revised+money-changer-fstc2.piece 0 4 CLEAN: differs (our rows say VIOLATED at step 4)" \
    "$revised+money-changer-fstc2.piece,0,4,CLEAN\\n"
one 0 "$revised+money-changer-uic2.piece 0 6 CLEAN: agrees (reference row)" "$revised+money-changer-uic2.piece,0,6,CLEAN\\n"
one 30 "$revised+money-changer-uic2.piece 0 7 CLEAN: not judged (no reference row reaches it; give a proof)" \
    "$revised+money-changer-uic2.piece,0,7,CLEAN\\n"
# with another property the piece is not read, and an empty one is none
one 0 "$revised+rows-bad.piece 2 20 CLEAN: agrees (reference row)" "$revised+rows-bad.piece,2,20,CLEAN\\n"
one 0 "design-a.stm+rows-empty.piece 0 3 VIOLATED 3: agrees (reference row)" 'design-a.stm+rows-empty.piece,0,3,VIOLATED,3\n'
one 30 "design-a.stm+rows-one.piece 0 3 VIOLATED 3: not judged (no reference row reaches it; give choices)" \
    'design-a.stm+rows-one.piece,0,3,VIOLATED,3\n'
one 2 "bad: refused 8 at 0: $piece_text" 'design-a.stm+rows-bad.piece,0,3,CLEAN\n'
one 2 "bad: none.piece is neither in $folder nor in designs" 'design-a.stm+none.piece,0,3,CLEAN\n'
one 2 "bad: none.stm is neither in $folder nor in designs" 'none.stm+rows-one.piece,0,3,CLEAN\n'
one 2 "bad: design-a.stm+none is neither in $folder nor in designs" 'design-a.stm+none,0,3,CLEAN\n'

# Choices
one 0 "design-a.stm 0 5 VIOLATED: agrees (reference row, witness)" 'design-a.stm,0,5,VIOLATED,,"2,0,1,0,0"\n'
one 0 "design-a.stm 0 9 VIOLATED: agrees (reference row, witness)" 'design-a.stm,0,9,VIOLATED,-,"1,2,0,1"\n'
one 0 "first-state.stm 1 0 VIOLATED 0: agrees (reference row, witness)" 'first-state.stm,1,0,VIOLATED,0,-\n'
one 0 "first-state.stm 1 0 VIOLATED 0: agrees (reference row)" 'first-state.stm,1,0,VIOLATED,0,\n'
one 0 "first-state.stm 1 0 VIOLATED: agrees (reference row)" 'first-state.stm,1,0,VIOLATED,,-\n'
one 0 "design-a.stm 0 3 VIOLATED 3: agrees (reference row)" 'design-a.stm,0,3,VIOLATED,3,-\n'
one 1 "design-a.stm 0 3 VIOLATED 3: differs (the choices do not break the property)" 'design-a.stm,0,3,VIOLATED,3,"2,0,0"\n'
one 1 "design-a.stm 0 3 VIOLATED: differs (the choices do not break the property)" 'design-a.stm,0,3,VIOLATED,,2\n'
one 1 "design-a.stm 0 9 VIOLATED 3: differs (the choices break it at step 4)" 'design-a.stm,0,9,VIOLATED,3,"1,2,0,1"\n'
one 1 "design-a.stm 0 9 VIOLATED 4: differs (our rows say VIOLATED at step 3)" 'design-a.stm,0,9,VIOLATED,4,"1,2,0,1"\n'
# choices behind the break are no fault, but a break behind the bound is, and so are choices that REPLAY refuses
one 0 "design-a.stm 0 3 VIOLATED 3: agrees (reference row, witness)" 'design-a.stm,0,3,VIOLATED,3,"2,0,1,0"\n'
one 1 "design-a.stm 0 3 VIOLATED: differs (the choices break it at step 4)" 'design-a.stm,0,3,VIOLATED,,"1,2,0,1"\n'
one 2 "bad: refused 12 at 3: a choice is no mover's number" 'design-a.stm,0,3,VIOLATED,3,"2,0,1,7"\n'
one 2 "bad: refused 14 at 0: $bound_text" "design-a.stm,0,100,VIOLATED,3,\"2,0$(printf ',1%.0s' {1..200})\"\\n"
# a header names file and verdict, which no row does
cp "$a" "$folder/file"
one 0 "file 0 3 VIOLATED 3: agrees (reference row)" 'file,0,3,VIOLATED,3\n'
one 2 "bad: $folder/proof is no file" 'design-a.stm,0,2,CLEAN,,,proof\n'
# one byte order mark is left out, not two
one 2 "bad: "$'\xef\xbb\xbf'"design-a.stm is neither in $folder nor in designs" '\357\273\277\357\273\277design-a.stm,0,3,VIOLATED,3\n'
one 0 "design-a.stm+rows-one.piece 0 2 VIOLATED: agrees (witness)" 'design-a.stm+rows-one.piece,0,2,VIOLATED,,"2,0"\n'
one 0 "design-a.stm+rows-one.piece 0 2 VIOLATED 2: agrees (witness; that no shorter run breaks is not judged)" \
    'design-a.stm+rows-one.piece,0,2,VIOLATED,2,"2,0"\n'
one 1 "design-a.stm+rows-one.piece 0 3 VIOLATED 3: differs (the choices break it at step 2)" \
    'design-a.stm+rows-one.piece,0,3,VIOLATED,3,"2,0,1"\n'
one 1 "design-a.stm+rows-one.piece 0 0 VIOLATED 0: differs (the choices do not break the property)" \
    'design-a.stm+rows-one.piece,0,0,VIOLATED,0,-\n'
one 2 "bad: refused 12 at 1: a choice is no mover's number" 'design-a.stm,0,3,VIOLATED,3,"2,3,1"\n'
one 2 "bad: not a number: x" 'design-a.stm,0,3,VIOLATED,3,"2,x,1"\n'
one 2 "bad: not a number: (empty)" 'design-a.stm,0,3,VIOLATED,3,"2,,1"\n'
one 2 "bad: over 255: 256" 'design-a.stm,0,3,VIOLATED,3,256\n'
# a formula of too many variables has no part in a run
one 1 "most-gates.stm 1 100 VIOLATED: differs (the choices do not break the property)" 'most-gates.stm,1,100,VIOLATED,,"0,1,2"\n'

# Proofs
one 0 "design-a.stm 0 1 CLEAN: agrees (reference row, proof)" 'design-a.stm,0,1,CLEAN,,,first.drat\n'
one 0 "design-a.stm 0 2 CLEAN: agrees (reference row, proof)" "design-a.stm,0,2,CLEAN,-,-,$PWD/$folder/second.drat\\n"
one 0 "design-a.stm+rows-one.piece 0 1 CLEAN: agrees (proof)" 'design-a.stm+rows-one.piece,0,1,CLEAN,,,first.drat\n'
one 1 "design-a.stm+rows-one.piece 0 2 CLEAN: differs (line 1 does not follow)" 'design-a.stm+rows-one.piece,0,2,CLEAN,,,first.drat\n'
one 1 "design-a.stm 0 2 CLEAN: differs (line 1 does not follow)" 'design-a.stm,0,2,CLEAN,,,first.drat\n'
one 1 "design-a.stm 0 1 CLEAN: differs (ended without an empty clause)" 'design-a.stm,0,1,CLEAN,,,ended.drat\n'
one 1 "design-a.stm 0 1 CLEAN: differs (line 2 does not follow)" 'design-a.stm,0,1,CLEAN,,,wrong.drat\n'
one 1 "design-a.stm 0 3 CLEAN: differs (our rows say VIOLATED at step 3)" 'design-a.stm,0,3,CLEAN,,,second.drat\n'
one 2 "bad: refused 17 at 7550: a literal in line 1 of the proof is none of the formula's 588 variables" \
    'design-a.stm,0,1,CLEAN,,,outside.drat\n'
one 2 "bad: $folder/broken.drat, line 1: no closing 0" 'design-a.stm,0,1,CLEAN,,,broken.drat\n'
one 2 "bad: cannot open $folder/none.drat: No such file or directory" 'design-a.stm,0,1,CLEAN,,,none.drat\n'
one 2 "bad: cannot read $folder/none: Is a directory" 'design-a.stm,0,1,CLEAN,,,none\n'

# Rows that are no good
one 2 "bad: there is no file" ',0,3,CLEAN\n'
one 2 "bad: there is no property" 'design-a.stm\n'
one 2 "bad: there is no bound" 'design-a.stm,0, ,CLEAN\n'
one 2 "bad: there is no verdict" 'design-a.stm,0,3\n'
one 2 "bad: more than 7 fields" 'design-a.stm,0,3,CLEAN,,,,\n'
one 2 "bad: not a number: -1" 'design-a.stm,-1,3,CLEAN\n'
one 2 "bad: not a number: 3 x" 'design-a.stm,0,3 x,CLEAN\n'
one 2 "bad: over 18446744073709551615: 18446744073709551616" 'design-a.stm,0,18446744073709551616,CLEAN\n'
one 2 "bad: not a number: x" 'design-a.stm,0,3,VIOLATED,x\n'
one 2 "bad: the step is over the bound" 'design-a.stm,0,3,VIOLATED,4\n'
one 2 "bad: a CLEAN row has no step" 'design-a.stm,0,2,CLEAN,0\n'
one 2 "bad: a CLEAN row has no choices" 'design-a.stm,0,2,CLEAN,,0\n'
one 2 "bad: a VIOLATED row has no proof" 'design-a.stm,0,3,VIOLATED,3,,second.drat\n'
one 2 "bad: no such verdict: CLEAN?1" 'design-a.stm,0,3,"CLEAN\n1"\n'
one 2 "bad: no such verdict: $(printf 'x%.0s' {1..64}).." "design-a.stm,0,3,$(printf 'x%.0s' {1..65})\\n"
one 2 "bad: refused 13 at 0: $property_text" 'design-a.stm,2,3,CLEAN\n'
one 2 "bad: refused 14 at 0: $bound_text" 'design-a.stm,0,101,VIOLATED,3\n'
one 2 "bad: refused 14 at 0: $bound_text" 'design-a.stm,0,18446744073709551615,VIOLATED,18446744073709551615\n'
one 2 "bad: refused 1 at 15: $length_text" 'rows-short.stm,0,3,CLEAN\n'
one 2 "bad: none.stm is neither in $folder nor in designs" 'none.stm,0,3,SPENT\n'
one 2 "bad: - is neither in $folder nor in designs" '-,0,3,CLEAN\n'
one 2 "bad: cannot read $folder/none: Is a directory" 'none,0,3,CLEAN\n'
judged 2 "row 2: bad: more fields than the header has
row 3: bad: there is no verdict
2 rows: 0 agree, 0 differ, 0 not judged, 2 bad" 'file,property,bound,verdict\ndesign-a.stm,0,3,CLEAN,\ndesign-a.stm,0,3\n'

# Tables that are no good
faulty "there are no rows in $table" ''
faulty "there are no rows in $table" '\n \n\r\n'
faulty "there are no rows in $table" 'file,property,bound,verdict\n'
faulty "$table, line 1: there is no column bound" 'file,property,verdict\ndesign-a.stm,0,CLEAN\n'
faulty "$table, line 2: the column step stands twice" '\nstep,file,property,bound,verdict,Step\n'
faulty "$table, line 2: a quote that is not closed" 'design-a.stm,0,3,CLEAN\nmutex.stm,0,3,"CLEAN\n\n'
faulty "$table, line 2: a quote inside a field that is not in quotes" 'design-a.stm,0,3,CLEAN\nmutex.stm,0,3,CL"EAN"\n'
faulty "$table, line 3: text after a closing quote" '"design-a.stm",0,3,CLEAN\n"mutex\n"x,0,3,CLEAN\n'
faulty "$table, line 1: text after a closing quote" '"design-a.stm" "",0,3,CLEAN\n'
faulty "$table, line 1: this is no text" 'design-a.stm,0,3,CLEAN\000\n'
faulty "$table, line 2: this is no text" '"design-a.stm\n\000",0,3,CLEAN\n'
faulty "$table, line 1: a carriage return without a line feed" 'design-a.stm,0,3,CLEAN\rmutex.stm,0,3,CLEAN\n'
call 2 "stm: cannot open $folder/none.csv: No such file or directory" rows "$folder/none.csv"
call 2 "stm: cannot read $folder/none: Is a directory" rows "$folder/none"
call 2 "stm: there are no rows in -" rows - < /dev/null
# longer than the first memory: a field of 5,000 bytes, and 3,000 rows
one 2 "bad: cannot open $folder/$(printf 'x%.0s' {1..5000}): File name too long" "$(printf 'x%.0s' {1..5000}),0,3,CLEAN\\n"
for _ in {1..3000}; do echo '"",0,3,SPENT'; done > "$table"
status 2 rows "$table"
last "3000 rows: 0 agree, 0 differ, 0 not judged, 3000 bad"

# Our own tables: none, or bad ones, in the folder that is named
claim='design-a.stm,0,3,VIOLATED,3,"2,0,1"\n'
nowhere="--designs FOLDER, or STM_DESIGNS, says where they are"
faulty "there are no reference rows in $folder/none; $nowhere" "$claim" --designs "$folder/none"
faulty "there are no reference rows in $folder/nothing; $nowhere" "$claim" --designs "$folder/nothing"
STM_DESIGNS=$folder/none faulty "there are no reference rows in $folder/none; $nowhere" "$claim"
STM_DESIGNS=$folder/none one 0 "design-a.stm 0 3 VIOLATED 3: agrees (reference row, witness)" "$claim" --designs designs
STM_DESIGNS="" one 0 "design-a.stm 0 3 VIOLATED 3: agrees (reference row, witness)" "$claim"

# digests: the list of our own files, as they are now
digests() {
    (cd "$folder/own" && find . -name '*.stm' -o -name '*.piece' | sed 's|^./||' | xargs sha256sum > rows-files.txt)
}
# own ROW..: rows of a table of our own, as FILE PROPERTY BOUND VERDICT AT
own() {
    local row
    for row in "$@"; do
        # shellcheck disable=SC2086
        set -- $row
        echo "$1 $2 $3 - $4 $5 0 0 0 0 ? - ?"
    done > "$folder/own/rows.txt"
    digests
}
own_table=$folder/own/rows.txt
own "design-a.stm 0 1 CLEAN -"
STM_DESIGNS=$folder/own one 0 "design-a.stm 0 1 CLEAN: agrees (reference row)" 'design-a.stm,0,1,CLEAN\n'
one 30 "design-a.stm 0 2 CLEAN: not judged (no reference row reaches it; give a proof)" 'design-a.stm,0,2,CLEAN\n' --designs "$folder/own"
one 0 "design-a.stm 0 2 CLEAN: agrees (proof)" 'design-a.stm,0,2,CLEAN,,,second.drat\n' --designs "$folder/own"
one 1 "design-a.stm 0 9 VIOLATED 1: differs (our rows say CLEAN up to bound 1)" 'design-a.stm,0,9,VIOLATED,1\n' --designs "$folder/own"
one 0 "design-a.stm 0 3 VIOLATED 3: agrees (witness; that no shorter run breaks is not judged)" "$claim" --designs "$folder/own"
own "design-a.stm 0 2 CLEAN -" "design-a.stm 0 1 CLEAN -" "design-a.stm 0 99 SPENT 3" "design-a.stm 0 3 REFUSED 8"
one 0 "design-a.stm 0 3 VIOLATED 3: agrees (witness)" "$claim" --designs "$folder/own"
# a row of ours with a piece tells of the design alone where the piece is empty, or not read
cp "$folder/rows-empty.piece" "$folder/rows-one.piece" "$folder/own/"
own "design-a.stm+rows-empty.piece 0 2 CLEAN -" "design-a.stm+rows-one.piece 1 4 CLEAN -" "design-a.stm+rows-one.piece 0 2 VIOLATED 2"
one 0 "design-a.stm 0 2 CLEAN: agrees (reference row)" 'design-a.stm,0,2,CLEAN\n' --designs "$folder/own"
one 0 "design-a.stm 1 4 CLEAN: agrees (reference row)" 'design-a.stm,1,4,CLEAN\n' --designs "$folder/own"
one 1 "design-a.stm+rows-one.piece 0 2 CLEAN: differs (our rows say VIOLATED at step 2)" 'design-a.stm+rows-one.piece,0,2,CLEAN\n' \
    --designs "$folder/own"
# what REPLAY and REFUTE show stands against our rows
own "design-a.stm 0 5 CLEAN -"
fault="our rows are at fault"
one 1 "design-a.stm 0 3 VIOLATED 3: differs (our rows say CLEAN, but the choices break the property at step 3: $fault)" "$claim" \
    --designs "$folder/own"
one 1 "design-a.stm 0 9 VIOLATED: differs (our rows say CLEAN up to bound 5, but the choices break the property at step 3: $fault)" \
    'design-a.stm,0,9,VIOLATED,,"2,0,1"\n' --designs "$folder/own"
one 1 "design-a.stm 0 4 VIOLATED 4: differs (our rows say CLEAN, but the choices break the property at step 3: $fault)" \
    'design-a.stm,0,4,VIOLATED,4,"2,0,1,0"\n' --designs "$folder/own"
own "design-a.stm 0 5 VIOLATED 4"
one 1 "design-a.stm 0 5 VIOLATED: differs (our rows say VIOLATED at step 4, but the choices break the property at step 3: $fault)" \
    'design-a.stm,0,5,VIOLATED,,"2,0,1"\n' --designs "$folder/own"
own "design-a.stm 0 5 VIOLATED 1"
one 1 "design-a.stm 0 2 CLEAN: differs (our rows say VIOLATED at step 1, but the proof is accepted: $fault)" \
    'design-a.stm,0,2,CLEAN,,,second.drat\n' --designs "$folder/own"
# rows about a file that was changed since, that is not listed, or whose list is none; sha256sum's * before a name is taken
own "design-a.stm 0 3 VIOLATED 3"
list=$folder/own/rows-files.txt
sed -i 's/  / */' "$list"
one 0 "design-a.stm 0 3 VIOLATED 3: agrees (reference row, witness)" "$claim" --designs "$folder/own"
{ head -c 55 "$a"; printf '\011'; tail -c +57 "$a"; } > "$folder/own/design-a.stm"
faulty "$own_table, line 1: the rows are about other bytes, by rows-files.txt: design-a.stm" "$claim" --designs "$folder/own"
cp "$a" "$folder/own/design-a.stm"
sed -i '/design-a/d' "$list"
faulty "$own_table, line 1: rows-files.txt has no digest of this file: design-a.stm" "$claim" --designs "$folder/own"
rm "$list"
faulty "$own_table, line 1: rows-files.txt has no digest of this file: design-a.stm" "$claim" --designs "$folder/own"
hex=$(printf 'a%.0s' {1..64})
for text in "x" "$hex" "${hex#a} a.stm" "${hex}a a.stm" "${hex^^} a.stm" "$hex a.stm b" ""; do
    echo "$text" > "$list"
    faulty "$list, line 1: no digest and name" "$claim" --designs "$folder/own"
done
rm "$list"
# rows that contradict each other, also of two names of one design, and in two tables
contradicts="the row contradicts an earlier one of this design, piece and property"
own "design-a.stm 0 2 CLEAN -" "design-a.stm 0 3 VIOLATED 3" "design-a.stm 0 3 CLEAN -"
faulty "$own_table, line 3: $contradicts" "$claim" --designs "$folder/own"
own "design-a.stm 0 3 VIOLATED 3" "design-a.stm 0 4 VIOLATED 4"
faulty "$own_table, line 2: $contradicts" "$claim" --designs "$folder/own"
own "design-a.stm 0 4 VIOLATED 4" "design-a.stm 0 3 VIOLATED 3"
faulty "$own_table, line 2: $contradicts" "$claim" --designs "$folder/own"
cp "$a" "$folder/own/again.stm"
own "design-a.stm 0 3 VIOLATED 3" "again.stm 0 3 CLEAN -"
faulty "$own_table, line 2: $contradicts" "$claim" --designs "$folder/own"
own "design-a.stm 0 3 VIOLATED 3" "again.stm 1 3 CLEAN -"
one 0 "design-a.stm 0 3 VIOLATED 3: agrees (reference row, witness)" "$claim" --designs "$folder/own"
echo "design-a.stm 0 3 0 0 0 x 0 0 accepted x" > "$folder/own/rows-refuted.txt"
faulty "$folder/own/rows-refuted.txt, line 1: $contradicts" "$claim" --designs "$folder/own"
echo "design-a.stm 0 3 - - - - - - - solvers" > "$folder/own/rows-refuted.txt"
one 0 "design-a.stm 0 3 VIOLATED 3: agrees (reference row, witness)" "$claim" --designs "$folder/own"
echo "design-a.stm 0 3 0 0 0 x 0 0 refuted x" > "$folder/own/rows-refuted.txt"
faulty "$folder/own/rows-refuted.txt, line 1: no such answer: refuted" "$claim" --designs "$folder/own"
# one table is enough, whichever it is
rm "$own_table"
echo "design-a.stm 0 2 0 0 0 x 0 0 accepted x" > "$folder/own/rows-refuted.txt"
one 0 "design-a.stm 0 2 CLEAN: agrees (reference row)" 'design-a.stm,0,2,CLEAN\n' --designs "$folder/own"
rm "$folder/own/rows-refuted.txt"
echo "design-a.stm 0 4 - VIOLATED 3 ? 1 2 3 ? 2,0,1 ?" > "$folder/own/rows-published.txt"
one 0 "design-a.stm 0 2 CLEAN: agrees (reference row)" 'design-a.stm,0,2,CLEAN\n' --designs "$folder/own"
rm "$folder/own/rows-published.txt"
# lines that are no rows
while IFS='|' read -r text line; do
    printf '# a comment\n\n%b\n' "$line" > "$own_table"
    faulty "$own_table, line 3: $text" "$claim" --designs "$folder/own"
done << 'LINES'
a row with too few or too many words|design-a.stm 0 3 - CLEAN - 0 0 0 0 0 -
a row with too few or too many words|design-a.stm 0 3 - CLEAN - 0 0 0 0 0 - 0 0
not a number: x|design-a.stm x 3 - CLEAN - 0 0 0 0 0 - 0
out of range: 3|design-a.stm 3 3 - CLEAN - 0 0 0 0 0 - 0
out of range: -1|design-a.stm -1 3 - CLEAN - 0 0 0 0 0 - 0
out of range: 101|design-a.stm 0 101 - CLEAN - 0 0 0 0 0 - 0
no such verdict: clean|design-a.stm 0 3 - clean - 0 0 0 0 0 - 0
not a number: -|design-a.stm 0 3 - VIOLATED - 0 0 0 0 0 - 0
out of range: 4|design-a.stm 0 3 - VIOLATED 4 0 0 0 0 0 - 0
there is no such file in the folder: none.stm|none.stm 0 3 - CLEAN - 0 0 0 0 0 - 0
there is no such file in the folder: none.piece|design-a.stm+none.piece 0 3 - CLEAN - 0 0 0 0 0 - 0
this is no text|design-a.stm 0 3 - CLEAN\0000 - 0 0 0 0 0 - 0
LINES
rm "$own_table"
mkdir "$own_table"
faulty "cannot read $own_table: Is a directory" "$claim" --designs "$folder/own"

# Words
call 2 "stm: usage: stm rows RESULTS.csv; stm --help tells more" rows
call 2 "stm: usage: stm rows RESULTS.csv; stm --help tells more" rows "$table" "$table"
call 2 "stm: rows takes no --piece" rows "$table" --piece "$folder/rows-one.piece"

# The list of our designs and pieces has all of them, and their digests
(cd designs && sha256sum -c --quiet rows-files.txt) || fault "designs/rows-files.txt has other digests"
[ "$(cut -c 67- designs/rows-files.txt | sort)" = "$(cd designs && ls -- *.stm *.piece | sort)" ] || fault "designs/rows-files.txt lists other files"

# Every stored row as a claim, and with the verdict turned round. A runner would take too long for these.
# claims TABLE TURNED: the rows of a table as another tool's table
claims() {
    awk -v turned="$2" '
        /^#/ || ($5 != "CLEAN" && $5 != "VIOLATED") { next }
        turned { print $1 "," $2 "," $3 "," ($5 == "CLEAN" ? "VIOLATED" : "CLEAN"); next }
        { print $1 "," $2 "," $3 "," $5 "," $6 ",\"" $12 "\"" }' "$1" > "$folder/claims.csv"
    count=$(wc -l < "$folder/claims.csv")
    [ "$count" -gt 0 ] || { echo "there are no stored rows in $1"; failed=1; }
}
for stored in designs/rows.txt designs/rows-pieces.txt designs/rows-deep.txt designs/rows-published.txt designs/rows-owners.txt; do
    fast || break
    [ -f "$stored" ] || { fault "there is no $stored"; continue; }
    claims "$stored" 0
    status 0 rows "$folder/claims.csv"
    last "$count rows: $count agree, 0 differ, 0 not judged, 0 bad"
    [ "$(grep -c 'VIOLATED .*: agrees (reference row, witness)$' "$work/out")" = "$(grep -c VIOLATED "$folder/claims.csv")" ] ||
        { echo "$called: not every witness is replayed"; failed=1; }
    claims "$stored" 1
    status 1 rows "$folder/claims.csv"
    last "$count rows: 0 agree, $count differ, 0 not judged, 0 bad"
done
