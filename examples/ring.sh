#!/usr/bin/env bash
# A ring of real programs: one master, ./ringbox, and three units, ./unit, talk through pipes. Two of the units claim one number. They talk
# until the ring is OK; then a unit looks another one up and is told the answer, and a cable is re-plugged. Orders and records pass between
# the programs as they are written: `<` lines from the master to every unit, `>` lines from a unit to the master. A comment behind each
# line, which comes back, says that its answer is whole. Ends with status 1 where anything is refused or the ring does not come to OK.
set -euo pipefail
cd "$(dirname "$0")/.."
readonly PATIENCE=60 # seconds for an answer

./ringbox --help >/dev/null
./unit --help >/dev/null
work=$(mktemp -d)
trap 'kill $(jobs -p) 2>/dev/null || :; rm -rf "$work"' EXIT

fail() {
    echo "ring.sh: $*" >&2
    exit 1
}

declare -A in out
# Starts a program under a name.
start() {
    local given told
    mkfifo "$work/$1.in" "$work/$1.out"
    "./$2" <"$work/$1.in" >"$work/$1.out" &
    exec {given}<>"$work/$1.in" {told}<>"$work/$1.out"
    in[$1]=$given out[$1]=$told
}

# Says a line to a program and takes its answer, the line in its normal form first, into `answer`.
say() {
    local line
    printf '%s\n# whole\n' "$2" >&"${in[$1]}"
    answer=()
    while IFS= read -r -t "$PATIENCE" -u "${out[$1]}" line; do
        if [ "$line" = '# whole' ]; then return; fi
        if [[ $line == '!'* || $line == '# not understood'* ]]; then fail "$1 says to $2: $line"; fi
        answer+=("$line")
    done
    fail "$1 does not answer: $2"
}

# Shows a question to a program and its answer.
show() {
    say "$1" "$2"
    printf '%-8s %s\n' "$1" "${answer[@]:0:1}"
    for line in "${answer[@]:1}"; do printf '%-8s %s\n' '' "$line"; done
}

# A record goes to the master, each order to every unit, each unit's answer to the master; until there is no more to say.
talk() {
    local records=("$1") record orders order unit line
    printf '%-8s %s\n' "$2" "$1"
    while [ ${#records[@]} -gt 0 ]; do
        record=${records[0]} records=("${records[@]:1}")
        say ringbox "$record"
        orders=()
        for line in "${answer[@]}"; do if [[ $line == '<'* ]]; then orders+=("$line"); fi; done
        for order in "${orders[@]}"; do
            printf '%-8s %s\n' ringbox "$order"
            for unit in unit1 unit2 unit3; do
                say $unit "$order"
                for line in "${answer[@]}"; do
                    if [[ $line == '>'* ]]; then
                        printf '%-8s %s\n' $unit "$line"
                        records+=("$line")
                    fi
                done
            done
        done
    done
}

# The ring is OK, and no question is open.
settled() {
    say ringbox state
    [[ ${answer[1]} == '= OK '*' open 0 '* ]] || fail "the ring is not in order: ${answer[1]}"
}

start ringbox ringbox
for unit in unit1 unit2 unit3; do start $unit unit; done
show unit1 'unit 1 0101 22.01 31.01'
show unit2 'unit 2 0102 22.01'
show unit3 'unit 3 0103 40.01'

talk '> 4D45 01 00000000 04' START
settled
show ringbox listing
show unit2 list

# Unit 1 looks the renumbered one up; the master's answer is told to it.
show ringbox 'lookup 22 02'
[[ ${answer[1]} =~ ^'= at '[0-9]+' '([0-9A-F]{4}) ]] || fail "22.02 is not found: ${answer[1]}"
show unit1 "found 22 02 ${BASH_REMATCH[1]}"
show unit1 known

talk '> 4D45 02 00000000 04' RE-PLUG
settled
show ringbox state
show unit1 known
