# Verdicts
call 0 "CLEAN up to bound 0, 0 tries" verdict "$a" 0 0 0
call 0 "CLEAN up to bound 2, 20 tries" verdict "$a" 0 2
call 0 "CLEAN up to bound 2, 20 tries" verdict "$a" 0 2 20
call 30 "SPENT at bound 2, 19 tries" verdict "$a" 0 2 19
call 30 "SPENT at bound 1, 0 tries" verdict "$a" 0 100 0
call 10 "VIOLATED at step 3, 37 tries
choices 2,0,1
$trace" verdict "$a" 0 4 18446744073709551615
call 10 "VIOLATED at step 3, 37 tries
choices 2,0,1
$trace" verdict "$a" 0 3 00000000000000000000037
call 10 "VIOLATED at step 0, 0 tries
choices -
0 - 0 0 0 0 | 0" verdict designs/first-state.stm 1 5 0
call 0 "CLEAN up to bound 3, 20 tries" verdict "$a" 1 3
call 0 "CLEAN up to bound 0, 0 tries" verdict "$c" 2 0 0
call 30 "SPENT at bound 3, 12 tries" verdict "$c" 2 3 12
call 10 "VIOLATED at step 3, 13 tries
choices 2,0,1
$trace" verdict "$c" 2 5
call 10 "VIOLATED at step 1, 2 tries
choices 0
0 - 0 1 0 0 | 0
1 0 1 0 0 0 | 0" verdict designs/no-idle.stm 2 4
