#!/usr/bin/env bash
# Runs the simulator, as `rt run` in crates/simulator leaves it, from outside and compares what it prints, and its status. Ends at the first difference.
set -u
cd "$(git rev-parse --show-toplevel)" || exit 1
simulator=$PWD/crates/simulator/out/simulator
scratch=$(mktemp -d)
trap 'rm -rf "$scratch"' EXIT
count=0

fail() {
    echo "simulator.sh: $1"
    exit 1
}

# same NAME STATUS EXPECTED-OUTPUT ARGUMENTS..: standard input goes to the program
same() {
    local name=$1 status=$2 expected=$3
    shift 3
    "$simulator" "$@" >"$scratch/out" 2>"$scratch/err"
    local got=$?
    [ "$got" = "$status" ] || fail "$name: status $got, expected $status"
    printf '%s' "$expected" | cmp -s - "$scratch/out" || fail "$name: other output: $(head -c 300 "$scratch/out")"
    count=$((count + 1))
}

# Every example script gives the output beside it, from a file and from standard input.
for script in examples/*.script; do
    expected=$(cat "${script%.script}.out"; printf x)
    same "$script" 0 "${expected%x}" --strict "$script" </dev/null
    same "$script as input" 0 "${expected%x}" <"$script"
done

# No input, no newline at the end, CR before the newline, bytes that are no text.
same 'empty input' 0 '' </dev/null
same 'no newline at the end' 0 $'0 none\n' < <(printf 'writable')
same 'CR and spaces' 0 $'ok\n24 from 0\n' < <(printf '  field on  \r\nwritable\r')
same 'bytes that are no text' 0 $'error line 1: unknown command: use tag, field, jis, b, bench, performed, writable or dump\n0 none\n' < <(printf '\xff\xfe\nwritable\n')

# An error goes on, and is told by the status only with --strict. A refusal is no error.
wrong=$'error line 2: field wants \'on\' or \'off\'\n'
same 'an error goes on' 0 $'ok\n'"$wrong"$'24 from 0\n' < <(printf 'field on\nfield up\nwritable\n')
same 'an error under --strict' 1 $'ok\n'"$wrong"$'24 from 0\n' --strict < <(printf 'field on\nfield up\nwritable\n')
same 'a refusal under --strict' 0 $'refused 1\n' --strict < <(printf 'bench read 32\n')

# Nothing runs with an unknown option, two scripts, or a file that cannot be read, and a message says why.
for arguments in '--strickt' '-s' '--strict --help' 'examples/memory.script examples/memory.script' '/nonexistent/script' '.'; do
    # shellcheck disable=SC2086
    same "arguments $arguments" 1 '' $arguments < <(printf 'writable\n')
    [ -s "$scratch/err" ] || fail "arguments $arguments: no message"
done

# Each line is answered before the next is sent.
coproc "$simulator"
# kept, since the shell forgets them once the program has ended
pid=$COPROC_PID to=${COPROC[1]} from=${COPROC[0]}
for _ in 1 2 3; do
    printf 'writable\n' >&"$to"
    IFS= read -r -t 20 answer <&"$from" || fail 'no answer through a pipe'
    [ "$answer" = '0 none' ] || fail "through a pipe: $answer"
done
exec {to}>&-
wait "$pid" || fail 'status after a pipe'
count=$((count + 1))

echo "simulator.sh: $count runs as expected"
