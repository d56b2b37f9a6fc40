# Progress, statistics and time: the verdict stays the same, and standard output has it alone
lines="bound 0: clean, 0 tries, [0-9.]+ s
bound 1: clean, 4 tries, [0-9.]+ s
bound 2: clean, 16 tries, [0-9.]+ s"
# followed PATTERNS: the lines of the latest call's standard error, in order
followed() {
    [[ $(cat "$work/err") =~ ^$1$ ]] || { fault "$called: other lines on standard error:"; cat "$work/err"; }
}
violated="VIOLATED at step 3, 37 tries
choices 2,0,1
$trace"
# answered STATUS TEXT ARGUMENTS..: standard output alone
answered() {
    local expected=$1 text=$2
    shift 2
    status "$expected" "$@"
    [ "$(cat "$work/out")" = "$text" ] || { fault "$called: another answer:"; cat "$work/out"; }
}
answered 10 "$violated" verdict "$a" 0 5 --progress
followed "$lines
bound 3: violated, 17 tries, [0-9.]+ s"
answered 0 "CLEAN up to bound 2, 20 tries" verdict "$a" 0 2 --progress
followed "$lines"
answered 10 "$violated" verdict "$a" 0 3 37 --progress
answered 30 "SPENT at bound 3, 36 tries" verdict "$a" 0 5 36 --progress
followed "$lines
bound 3: spent, 16 tries, [0-9.]+ s"
answered 30 "SPENT at bound 1, 0 tries" verdict "$a" 0 100 0 --progress
followed "bound 0: clean, 0 tries, [0-9.]+ s
bound 1: spent, 0 tries, [0-9.]+ s"
answered 10 "$violated" verdict "$a" 0 3 --time 1000
followed ""
answered 10 "VIOLATED at step 0, 0 tries
choices -
0 - 0 0 0 0 | 0" verdict designs/first-state.stm 1 5 --progress
followed "bound 0: violated, 0 tries, [0-9.]+ s"
# refused before anything is told
call 3 "refused 13 at 0: $property_text" verdict "$a" 2 1 --progress --stats --time 9
status 10 verdict "$a" 0 3 --stats
[ "$(sed 's/[0-9.]* s$/T s/' "$work/out")" = "bound 0: 104 variables, 299 clauses, 0 tries, T s
bound 1: 588 variables, 2040 clauses, 4 tries, T s
bound 2: 1072 variables, 3781 clauses, 16 tries, T s
bound 3: 1556 variables, 5522 clauses, 17 tries, T s
$violated" ] || { fault "$called: other statistics:"; cat "$work/out"; }
[ ! -s "$work/err" ] || fault "$called: something on standard error"
if fast; then
    # budgets that grow past the first: over so many tries, of this bound
    answered 10 "$("$stm" verdict designs/mutex.stm 0 4)" verdict designs/mutex.stm 0 9 --progress
    has err "bound 3: clean, [0-9]+ tries, [0-9.]+ s"
    has err "bound 4: over 510 tries so far, [0-9.]+ s"
    has err "bound 4: violated, 1252 tries, [0-9.]+ s"
    # a search that takes far longer than it gets: every bound from 1 on needs tries, so what is told of it is SPENT by that budget, too
    endless="designs/money-changer-revised-uic1.stm 1 9"
    # stood_at BOUND TRIES: that the search stands there with that budget, and past bound 0, which needs no try
    stood_at() {
        # shellcheck disable=SC2086
        [ "$1" -gt 0 ] && [ "$("$stm" verdict $endless "$2")" = "SPENT at bound $1, $2 tries" ] ||
            fault "$called: told bound $1 and $2 tries"
    }
    # told_of LINE: of the line that an interrupted search tells
    told_of() {
        if [[ $1 =~ ^(\^C)?"stm: stopped at bound "([0-9]+)" after "([0-9]+)" tries"("; no run of up to "([0-9]+)" choices breaks the property")?$ ]]; then
            stood_at "${BASH_REMATCH[2]}" "${BASH_REMATCH[3]}"
            [ "${BASH_REMATCH[5]:--1}" = $((BASH_REMATCH[2] - 1)) ] || fault "$called: $1"
        else
            fault "$called: another line: $1"
        fi
    }
    # shellcheck disable=SC2086
    status 30 verdict $endless --time 1
    [[ $(cat "$work/out") =~ ^"SPENT at bound "([0-9]+)", "([0-9]+)" tries"$ ]] || { fault "$called:"; cat "$work/out"; }
    stood_at "${BASH_REMATCH[1]}" "${BASH_REMATCH[2]}"
    [ "$(cat "$work/err")" = "stm: stopped after 1 s" ] || fault "$called: $(cat "$work/err")"
    # shellcheck disable=SC2086
    status 30 verdict $endless --time 1 --json --stats
    has out '\{"type":"bound","bound":0,.*'
    last "$(sed -n 's/^\({"type":"verdict",.*"verdict":"SPENT","at":[0-9]*,"tries":[0-9]*,"choices":null,"stopped":"time"}\)$/\1/p' "$work/out")"
    # shellcheck disable=SC2086
    "$stm" verdict $endless --time 1 > /dev/full 2> "$work/err"
    got=$? calls=$((calls + 1)) called="stm verdict --time 1 > /dev/full"
    [ "$got $(cat "$work/err")" = "2 stm: stopped after 1 s
stm: cannot write the answer" ] || fault "$called: exit $got, $(cat "$work/err")"
    # the time does not count when the answer is found, though nobody reads what is told of it yet
    mkfifo "$work/unread"
    { sleep 2; cat > /dev/null; } < "$work/unread" &
    { yes | head -c 65536; "$stm" verdict designs/first-state.stm 1 5 --progress --time 1 2>&1 > "$work/out"; } > "$work/unread"
    got=$? calls=$((calls + 1)) called="stm verdict --time 1, unread"
    wait
    [ "$got" = 10 ] || fault "$called: exit $got"
    # a caller that blocks the alarm
    # shellcheck disable=SC2086
    timeout 60 env --block-signal=ALRM "$stm" verdict $endless --time 1 > "$work/out" 2> "$work/err"
    got=$? calls=$((calls + 1)) called="stm verdict --time 1, SIGALRM blocked"
    [ "$got $(cat "$work/err")" = "30 stm: stopped after 1 s" ] || fault "$called: exit $got, $(cat "$work/err")"
    # a signal, once the search is past bound 1: where it stood is told, and the process ends by the signal. (timeout, so that a caller
    # which ignores the signal does not keep the program from it.)
    for signal in INT TERM; do
        : > "$work/err"
        # shellcheck disable=SC2086
        timeout 120 bash -c 'set -m; "$@" & until grep -q "bound 1" "'"$work"'/err"; do sleep 0.1; done; kill -'$signal' $!; wait $!' - \
            "$stm" verdict $endless --progress > "$work/out" 2> "$work/err"
        got=$?
        calls=$((calls + 1)) called="stm verdict, SIG$signal"
        case $signal,$got in INT,130 | TERM,143) ;; *) fault "$called: exit $got" ;; esac
        told_of "$(grep "^stm: " "$work/err")"
        [ ! -s "$work/out" ] || fault "$called: something on standard output"
    done
    # one that the caller ignores stays ignored: the time ends it
    # shellcheck disable=SC2086
    bash -c 'trap "" INT; "$@" & sleep 1; kill -INT $!; wait $!' - "$stm" verdict $endless --time 2 > "$work/out" 2> "$work/err"
    got=$? calls=$((calls + 1)) called="stm verdict, SIGINT ignored"
    [ "$got $(cat "$work/err")" = "30 stm: stopped after 2 s" ] || fault "$called: exit $got, $(cat "$work/err")"
    # On a terminal a search of over 1,000 tries is followed without being asked; a shorter one prints its answer alone, unless a call
    # took over a second
    # terminal STATUS ARGUMENTS..
    terminal() {
        local expected=$1
        shift
        timeout 120 script -qec "$stm $*" /dev/null < "${input:-/dev/null}" > "$work/raw"
        got=$?
        tr -d '\r' < "$work/raw" > "$work/out"
        calls=$((calls + 1)) called="stm $* on a terminal"
        [ "$got" = "$expected" ] || fault "$called: exit $got, expected $expected"
    }
    if command -v script > /dev/null; then
        terminal 10 verdict "$a" 0 3
        [ "$(grep -v "^up to bound" "$work/out")" = "$violated" ] || { fault "$called:"; cat "$work/out"; }
        terminal 10 verdict designs/mutex.stm 0 9
        has out "up to bound 3: clean, 510 tries, [0-9.]+ s"
        has out "bound 4: violated, 1252 tries, [0-9.]+ s"
        has out "VIOLATED at step 4, 1762 tries"
        # what --stats has is not told twice
        terminal 0 verdict "$a" 0 2 --stats
        [ "$(grep -c "^bound" "$work/out")" = 3 ] || { fault "$called:"; cat "$work/out"; }
        # Ctrl-C, typed once the search is past some bounds
        mkfifo "$work/keys"
        : > "$work/raw"
        { timeout 100 bash -c 'until grep -q "bound" "'"$work"'/raw"; do sleep 0.1; done'; printf '\003'; sleep 1; } > "$work/keys" &
        # shellcheck disable=SC2086
        input=$work/keys terminal 130 verdict $endless
        told_of "$(tail -n 1 "$work/out")"
        wait
    else
        echo "left out: script, which gives the program a terminal, is not installed"
    fi
fi
