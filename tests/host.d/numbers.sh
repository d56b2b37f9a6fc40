# Numbers. A runner, which is slow, sees few of them.
texts=(x -1 +1 1x 0x1 " 1" "1 " 1.0 - 1,1)
fast || texts=(x)
for text in "${texts[@]}"; do
    call 2 "stm: not a number: $text" size "$a" "$text" 1
    call 2 "stm: not a number: $text" verdict "$a" 0 "$text"
    call 2 "stm: not a number: $text" verdict "$a" 0 1 "$text"
done
call 2 "stm: not a number: (empty)" cnf "$a" "" 1
call 2 "stm: not a number: (empty)" verdict "$a" 0 1 ""
call 2 "stm: over 18446744073709551615: 99999999999999999999999" size "$a" 99999999999999999999999 0
call 2 "stm: over 18446744073709551615: 99999999999999999999999" cnf "$a" 0 99999999999999999999999
call 2 "stm: over 18446744073709551615: 18446744073709551616" verdict "$a" 0 1 18446744073709551616
call 3 "refused 13 at 0: $property_text" size "$a" 2 101
call 3 "refused 13 at 0: $property_text" cnf "$a" 255 1
call 3 "refused 13 at 0: $property_text" verdict "$a" 2 1
for over in 256 300 4294967297 18446744073709551615; do
    call 3 "refused 13 at 0: $property_text" replay "$a" "$over" 0
    call 3 "refused 13 at 0: $property_text" verdict "$a" "$over" 1
    call 3 "refused 14 at 0: $bound_text" size "$a" 0 "$over"
    call 3 "refused 14 at 0: $bound_text" cnf "$a" 0 "$over"
    call 3 "refused 14 at 0: $bound_text" verdict "$a" 0 "$over"
done
call 3 "refused 14 at 0: $bound_text" size "$a" 0 101
call 3 "refused 14 at 0: $bound_text" cnf "$a" 1 101
call 3 "refused 14 at 0: $bound_text" verdict "$a" 0 255 0
