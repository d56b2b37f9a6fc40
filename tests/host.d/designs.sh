# Design files, and what cannot be read
: > "$work/empty.stm"
head -c 15 "$a" > "$work/short.stm"
{ head -c 57 "$a"; printf '\003'; tail -c 15 "$a"; } > "$work/version.stm"
{ head -c 51 "$a"; printf '\063'; tail -c 21 "$a"; } > "$work/invariant.stm"
{ cat designs/longest.stm; printf '\000'; } > "$work/long.stm"
head -c 16384 /dev/zero > "$work/zeros.stm"
head -c 20000 /dev/zero > "$work/longer.stm"
# Version 2: moved.stm has its invariant at 51, its constraint at 57 and the constraint's offset at 78
c=designs/moved.stm
{ printf '\000'; tail -c 16 "$c"; } > "$work/short-2.stm"
{ head -c 78 "$c"; printf '\062'; tail -c 17 "$c"; } > "$work/before.stm"
{ head -c 78 "$c"; printf '\117'; tail -c 17 "$c"; } > "$work/past.stm"
{ head -c 57 "$c"; tail -c 18 "$c"; } > "$work/no-constraint.stm"
{ head -c 51 "$c"; printf '\027\000'; tail -c 39 "$c"; } > "$work/next.stm"
call 0 "accepted" check "$a"
call 0 "accepted" check designs/longest.stm
call 3 "refused 1 at 0: $length_text" check "$work/empty.stm"
call 3 "refused 1 at 15: $length_text" check "$work/short.stm"
call 3 "refused 1 at 16385: $length_text" check "$work/long.stm"
call 3 "refused 1 at 16385: $length_text" check "$work/longer.stm"
call 3 "refused 2 at 16368: unknown version" check "$work/zeros.stm"
call 3 "refused 2 at 57: unknown version" check "$work/version.stm"
call 3 "refused 8 at 51: bad expression" check "$work/invariant.stm"
call 0 "accepted" check "$c"
call 3 "refused 1 at 17: $length_text" check "$work/short-2.stm"
call 3 "refused 4 at 51: $offset_text" check "$work/before.stm"
call 3 "refused 4 at 51: $offset_text" check "$work/past.stm"
call 3 "refused 8 at 57: bad expression" check "$work/no-constraint.stm"
call 3 "refused 8 at 51: bad expression" check "$work/next.stm"
for command in "replay $work/version.stm 0 -" "size $work/version.stm 9 200" "cnf $work/version.stm 0 1" \
    "verdict $work/version.stm 0 1 1"; do
    # shellcheck disable=SC2086
    call 3 "refused 2 at 57: unknown version" $command
done

# Files
call 2 "stm: cannot open $work/none.stm: No such file or directory" check "$work/none.stm"
call 2 "stm: cannot open : No such file or directory" check ""
call 2 "stm: cannot read $work: Is a directory" check "$work"
call 2 "stm: cannot read $work: Is a directory" verdict "$work" 0 1
call 2 "stm: cannot read /proc/self/mem: Input/output error" check /proc/self/mem
