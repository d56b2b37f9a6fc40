# The command's words and options
help="stm --help lists them"
more="stm --help tells more"
call 2 "stm: no command is named; $help"
call 2 "stm: unknown command: solve; $help" solve "$a" 0 1
if fast; then
    call 2 "stm: unknown command: ; $help" "" "$a"
    call 2 "stm: unknown command: --json; $help" --json check "$a"
    call 2 "stm: usage: stm check FILE; $more" check
    call 2 "stm: usage: stm check FILE; $more" check "$a" 0
    call 2 "stm: usage: stm replay FILE PROPERTY CHOICES; $more" replay "$a" 0
    call 2 "stm: usage: stm size FILE PROPERTY BOUND; $more" size "$a" 0 1 2
    call 2 "stm: usage: stm cnf FILE PROPERTY BOUND; $more" cnf "$a" 0
    call 2 "stm: usage: stm verdict FILE PROPERTY BOUND [BUDGET]; $more" verdict "$a" 0
    call 2 "stm: usage: stm verdict FILE PROPERTY BOUND [BUDGET]; $more" verdict "$a" 0 1 2 3
    call 2 "stm: usage: stm decode FILE PROPERTY BOUND MODEL; $more" decode "$a" 0 1
    call 2 "stm: usage: stm rows RESULTS.csv; $more" rows
    # Options stand anywhere after the command, each once, with its value; all is words behind --
    call 0 "accepted" check -- "$a"
    call 2 "stm: cannot open --json: No such file or directory" check -- --json
    call 2 "stm: usage: stm check FILE; $more" check -- "$a" --json
    call 2 "stm: unknown option: --x; $help" check "$a" --x
    call 2 "stm: unknown option: --json=1; $help" check "$a" --json=1
    call 2 "stm: check takes no --stats" check "$a" --stats
    call 2 "stm: cnf takes no --json" cnf --json "$a" 0 1
    call 2 "stm: rows takes no --piece" rows --piece x y
    call 2 "stm: --json stands twice" check --json "$a" --json
    call 2 "stm: --time needs SECONDS" verdict "$a" 0 1 --time
    call 2 "stm: --time takes at least 1 second" verdict "$a" 0 1 --time 0
    call 2 "stm: not a number: 1.5" verdict "$a" 0 1 --time 1.5
    call 2 "stm: over 1000000000: 1000000001" verdict "$a" 0 1 --time 1000000001
    call 2 "stm: --explain and --json do not go together" replay "$a" 0 - --json --explain
fi
# --help and --version, on standard output
for words in "--help" "verdict --help" "check --json --help $a" "--help --version" "nothing --help"; do
    # shellcheck disable=SC2086
    status 0 $words
    has out "usage: stm check FILE \[--json\]"
    has out "exit status: 0 clean.*"
    [ ! -s "$work/err" ] || fault "$called: something on standard error"
done
for command in check replay size cnf verdict refute decode owners rows; do
    has out "(usage:|      ) stm $command .*"
    has out "$command +[a-z].*"
done
call 2 "stm: cannot open --help: No such file or directory" check -- --help
version=0.$(sed -n 's/^#define STM_REQUESTS "\([0-9]*\)"$/\1/p' host/stm.h)
# The version names the archive that answers: its digest, and which of the two it is
case $stm in *standin*) kind="second implementation" archive=build/cargo/release/libstandin.a ;; *) kind=proved archive=crates/entries/out/libentries.a ;; esac
call 2 "stm: --version takes no words" --version --json
digest=$(sha256sum < "$archive")
call 0 "stm $version
archive: $kind, sha256 ${digest%% *}
covers: document 01 and requests R-1 to R-${version#0.} of document 02" --version

# - is standard input, once
from() {
    local file=$1
    shift
    call "$@" < "$file"
}
from "$a" 0 "accepted" check -
from "$a" 10 "VIOLATED at step 3, 37 tries
choices 2,0,1
$trace" verdict - 0 3
from "$work/short.stm" 3 "refused 1 at 15: $length_text" size - 0 1
from /dev/null 3 "refused 1 at 0: $length_text" check -
from "$a" 2 "stm: standard input is named twice" size - 0 1 --piece -
from "$a" 2 "stm: standard input is named twice" refute - 0 1 -
# also where what was read is no design
from "$work/short.stm" 2 "stm: standard input is named twice" decode - 0 1 -
from "$work" 2 "stm: cannot read -: Is a directory" check -
cp "$a" "$work/-"
program=$(realpath "$stm")
got=$(cd "$work" && "${runner[@]}" "$program" check ./- < /dev/null 2>&1; echo "exit $?")
calls=$((calls + 1))
[ "$got" = "accepted
exit 0" ] || fault "stm check ./-: $got"
