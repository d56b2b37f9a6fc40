# What cannot be written, and memory that is not there. A sanitizer takes more memory than the limit leaves.
"${runner[@]}" "$stm" cnf "$a" 0 4 > /dev/full 2> "$work/out"
[ $? = 2 ] && [ "$(cat "$work/out")" = "stm: cannot write: No space left on device" ] || fault "a full device is not told"
if fast && ! grep -q __asan_init "$stm"; then
    out=$(ulimit -v 40000 && "$stm" verdict designs/wide.stm 0 100 2>&1)
    [ $? = 2 ] && [ "$out" = "stm: not enough memory for a formula of this size" ] || fault "too little memory: $out"
    # nothing is lent for owners that are too many
    out=$(ulimit -v 40000 && "$stm" owners designs/wide.stm 100 "" "" "" "" "" 2>&1)
    [ $? = 3 ] && [ "$out" = "refused 20 at 0: $owners_text" ] || fault "too little memory for five owners: $out"
    echo 0 > "$work/proof"
    out=$(ulimit -v 40000 && "$stm" refute designs/wide.stm 0 100 "$work/proof" 2>&1)
    [ $? = 2 ] && [ "$out" = "stm: not enough memory for a formula of this size" ] || fault "too little memory: $out"
    # proofs of many clauses, and of one long line
    yes 1 0 | head -n 4000000 > "$work/many"
    head -c 32000000 /dev/zero | tr '\0' 1 > "$work/long"
    for file in many long; do
        out=$(ulimit -v 24000 && "$stm" refute "$a" 0 1 "$work/$file" 2>&1)
        [ $? = 2 ] && [[ $out =~ ^"stm: $work/$file, line "[0-9]+": not enough memory for a proof of this size"$ ]] ||
            fault "too little memory for a proof: $out"
    done
    calls=$((calls + 5))
fi
calls=$((calls + 1))
