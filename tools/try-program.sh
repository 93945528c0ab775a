#!/bin/sh
# Tries the built program from outside, over the standard streams, which no proof reads: each exit status from 0 to 6, and what is
# written with it. Each difference has a line; the last line is 'N passed, M failed', and the status is 1 where a case failed.
top=$(cd "$(dirname "$0")/.." && pwd) || exit 2
examples=$top/examples
crate=$top/crates/c11t
room=$(mktemp -d) || exit 2
trap 'rm -rf "$room"' EXIT
trap 'exit 130' HUP INT TERM
passed=0
failed=0

# The next cases are to write what this call is given.
wants() {
    cat >"$room/wanted"
}

wants_usage() {
    wants <<'END'
c11t run [--seed S] [--steps B]
c11t threads [--seed S] [--steps B] [--workers W]
c11t campaign [--first S] [--count N] [--steps B] [--workers W]
c11t trial [--number N] [--size Z] [--first S] [--count N] [--steps B] [--workers W]
c11t help
END
}

# Counts a case: what was tried, the status that it ended with, and the one that is wanted. What was written is compared too.
judge() {
    what=$1
    ended=$2
    wanted=$3
    set --
    [ "$ended" -eq "$wanted" ] || set -- "$@" "ends with status $ended, and not $wanted"
    cmp -s "$room/written" "$room/wanted" || set -- "$@" "writes other bytes: $(cd "$room" && cmp written wanted 2>&1)"
    [ ! -s "$room/said" ] || set -- "$@" "writes to standard error"
    if [ $# -eq 0 ]; then
        passed=$((passed + 1))
        return
    fi
    failed=$((failed + 1))
    for why in "$@"; do
        printf '%s %s: %s\n' "${program##*/}" "$what" "$why"
    done
}

# Runs the program over a text: the file of the text, the status that is wanted, and the words.
try() {
    text=$1
    status=$2
    shift 2
    "$program" "$@" <"$text" >"$room/written" 2>"$room/said"
    judge "${*:-no words}" $? "$status"
}

# The same of a text that has no file of its own.
try_text() {
    printf '%s\n' "$1" >"$room/text"
    shift
    try "$room/text" "$@"
}

# Runs an example: its name, the seed, the status that is wanted, and what it is to print and its verdict, each on a line, without numbers.
try_example() {
    "$program" run --seed "$2" <"$examples/$1.c" >"$room/whole" 2>"$room/said"
    ended=$?
    sed -n -e 's/^.* \(out [^ ]*\)$/\1/p' -e '/^verdict/ { s/ [0-9]* [0-9]* / /; p; }' "$room/whole" >"$room/written"
    what="run --seed $2 over $1.c"
    status=$3
    shift 3
    printf '%s\n' "$@" | wants
    judge "$what" $ended "$status"
}

try_done() {
    wants <"$crate/stdout"
    try "$examples/first.c" 0 run --seed 7
    try "$examples/first.c" 0 run --seed 7 --steps 2000
    try "$examples/first.c" 0 run --steps 2000 --seed 7
    try "$examples/first.c" 0 run --steps 00000000000000002000 --seed 007
}

try_found() {
    wants <<'END'
c11t 1 run seed 48 steps 2000
1 t0 l0 init ready 0
2 t0 l0 begin main 0
3 t0 l18 create writer 0 = t1
4 t1 l0 begin writer 0
5 t1 l11 write data 42
6 t1 l12 store ready relaxed 1
7 t0 l19 load ready acquire = 1 from 6 of 1 6
8 t0 l20 read data = 42
verdict race 5 8 data
END
    try "$examples/message_passing_relaxed.c" 1 run --seed 48
    try "$examples/message_passing_relaxed.c" 1 run --steps 2000 --seed 48
    wants <<'END'
c11t 1 run seed 0 steps 2000
1 t0 l0 begin main 0
2 t0 l1 stop local
verdict local
END
    try_text 'int main(void) { while (1); }' 1 run
}

try_bound() {
    wants <<'END'
c11t 1 run seed 18446744073709551615 steps 3
1 t0 l0 init x 0
2 t0 l0 begin main 0
3 t0 l4 store x relaxed 1
4 t0 l5 load x relaxed = 1 from 3 of 3
verdict bound
END
    try "$examples/first.c" 2 run --seed 18446744073709551615 --steps 3
    try "$examples/first.c" 2 run --steps 3 --seed 18446744073709551615
}

try_refused() {
    echo 'refused nomain 1 1' | wants
    try /dev/null 3 run
    echo 'refused item 2 1' | wants
    try_text 'int x;
int main(void) {' 3 run --steps 10000
    echo 'refused long' | wants
    dd if=/dev/zero of="$room/long" bs=65537 count=1 2>/dev/null
    try "$room/long" 3 run
}

try_usage() {
    wants_usage
    try "$examples/first.c" 0 help
    try "$examples/first.c" 4
    try "$examples/first.c" 4 ''
    try "$examples/first.c" 4 walk
    try "$examples/first.c" 4 help --seed 1
    try "$examples/first.c" 4 run --seed
    try "$examples/first.c" 4 run --seed=1
    try "$examples/first.c" 4 run --seed 1 --seed 1
    try "$examples/first.c" 4 run --seed 18446744073709551616
    try "$examples/first.c" 4 run --steps 0
    try "$examples/first.c" 4 run --steps 10001
    try "$examples/first.c" 4 threads
    # a word that is no UTF-8
    try "$examples/first.c" 4 run --seed "$(printf '\377')"
}

# Words that ask for nothing leave the input where it was, for whoever reads it next.
try_unread() {
    wants_usage
    {
        "$program" run --steps 0 >"$room/written" 2>"$room/said"
        ended=$?
        cat >"$room/left"
    } <"$examples/first.c"
    judge 'run --steps 0 before another reader' $ended 4
    wants <"$examples/first.c"
    mv "$room/left" "$room/written"
    judge 'run --steps 0 as it leaves the input' 0 0
}

try_read_faults() {
    wants </dev/null
    "$program" run <&- >"$room/written" 2>"$room/said"
    judge 'run, standard input closed' $? 5
    "$program" run --steps 10 --seed 3 <"$examples" >"$room/written" 2>"$room/said"
    judge 'run, a folder as standard input' $? 5
    "$program" campaign --count 2 <&- >"$room/written" 2>"$room/said"
    judge 'campaign, standard input closed' $? 5
    "$program" campaign --count 2 --workers 64 <"$examples" >"$room/written" 2>"$room/said"
    judge 'campaign, a folder as standard input' $? 5
}

try_write_faults() {
    wants </dev/null
    : >"$room/written"
    "$program" run <"$examples/first.c" >&- 2>"$room/said"
    judge 'run, standard output closed' $? 6
    "$program" run --seed 1 <"$examples/first.c" >/dev/full 2>"$room/said"
    judge 'run, a full device as standard output' $? 6
    "$program" run </dev/null >/dev/full 2>"$room/said"
    judge 'run over a text that is refused, a full device as standard output' $? 6
    "$program" campaign --count 2 <"$examples/first.c" >&- 2>"$room/said"
    judge 'campaign, standard output closed' $? 6
    "$program" campaign --count 2 --workers 64 <"$examples/first.c" >/dev/full 2>"$room/said"
    judge 'campaign, a full device as standard output' $? 6
    "$program" campaign </dev/null >/dev/full 2>"$room/said"
    judge 'campaign over a text that is refused, a full device as standard output' $? 6
    "$program" trial --size 1 --count 2 >&- 2>"$room/said"
    judge 'trial, standard output closed' $? 6
    "$program" trial --size 1 --count 2 >/dev/full 2>"$room/said"
    judge 'trial, a full device as standard output' $? 6
    "$program" help >&- 2>"$room/said"
    judge 'help, standard output closed' $? 6
    "$program" >/dev/full 2>"$room/said"
    judge 'no words, a full device as standard output' $? 6
}

# A summary depends on the seeds and the bound, and not on how many work at it.
try_campaigns() {
    wants <<'END'
campaign 1 first 0 count 5 steps 2000
done 5 0
bound 0 -
race 0 -
assert 0 -
fault 0 -
local 0 -
deadlock 0 -
outputs 1
5 -
END
    try "$examples/first.c" 0 campaign --count 5
    try "$examples/first.c" 0 campaign --workers 64 --steps 2000 --count 5 --first 0
    wants <<'END'
campaign 1 first 0 count 60 steps 2000
done 59 0
bound 0 -
race 1 48
assert 0 -
fault 0 -
local 0 -
deadlock 0 -
outputs 1
60 -
END
    for workers in 1 4 64; do
        try "$examples/message_passing_relaxed.c" 1 campaign --count 60 --workers "$workers"
    done
    wants <<'END'
campaign 1 first 18446744073709551614 count 2 steps 3
done 0 -
bound 2 18446744073709551614
race 0 -
assert 0 -
fault 0 -
local 0 -
deadlock 0 -
outputs 1
2 -
END
    for workers in 1 4 64; do
        try "$examples/first.c" 2 campaign --first 18446744073709551614 --count 2 --steps 3 --workers "$workers"
    done
    echo 'refused nomain 1 1' | wants
    try /dev/null 3 campaign
    try /dev/null 3 campaign --count 1000000 --workers 64
    echo 'refused long' | wants
    dd if=/dev/zero of="$room/long" bs=65537 count=1 2>/dev/null
    try "$room/long" 3 campaign --count 1
    wants_usage
    try "$examples/first.c" 4 campaign --count 0
    try "$examples/first.c" 4 campaign --count 1000001
    try "$examples/first.c" 4 campaign --first 18446744073709551615 --count 2
    try "$examples/first.c" 4 campaign --steps 4001
    try "$examples/first.c" 4 campaign --workers 65
    try "$examples/first.c" 4 campaign --seed 1
    try "$examples/first.c" 4 run --count 1
}

# Runs a trial twice, which prints the same: the number that its ring is made from, the size, the status that is wanted, and more words.
try_trial() {
    number=$1
    size=$2
    status=$3
    shift 3
    try /dev/null "$status" trial --number "$number" --size "$size" "$@"
    try /dev/null "$status" trial --number "$number" --size "$size" "$@"
}

try_trials() {
    wants <<'END'
campaign 1 first 0 count 50 steps 4000
done 50 0
bound 0 -
race 0 -
assert 0 -
fault 0 -
local 0 -
deadlock 0 -
outputs 1
50 36330a
END
    try_trial 0 64 0 --count 50
    try_trial 0 64 0 --count 50 --workers 1
    try_trial 0 64 0 --count 50 --workers 64
    wants <<'END'
campaign 1 first 0 count 50 steps 4000
done 0 -
bound 0 -
race 50 0
assert 0 -
fault 0 -
local 0 -
deadlock 0 -
outputs 1
50 -
END
    try_trial 1 64 1 --count 50
    wants <<'END'
campaign 1 first 0 count 2 steps 3
done 0 -
bound 2 0
race 0 -
assert 0 -
fault 0 -
local 0 -
deadlock 0 -
outputs 1
2 -
END
    try_trial 0 1 2 --count 2 --steps 3
    "$program" trial --size 1 --count 2 --steps 3 <&- >"$room/written" 2>"$room/said"
    judge 'trial, standard input closed' $? 2
    {
        "$program" trial --size 1 --count 2 --steps 3 >"$room/written" 2>"$room/said"
        ended=$?
        cat >"$room/left"
    } <"$examples/first.c"
    judge 'trial before another reader' $ended 2
    wants <"$examples/first.c"
    mv "$room/left" "$room/written"
    judge 'trial as it leaves the input' 0 0
    wants_usage
    try "$examples/first.c" 4 trial --size 0
    try "$examples/first.c" 4 trial --size 201
    try "$examples/first.c" 4 trial --steps 10000
    try "$examples/first.c" 4 trial --first 18446744073709551615 --count 2
}

# The command of each example's first comment, and what that says of it.
try_examples() {
    try_example first 7 0 'verdict done'
    try_example deadlock 0 1 'verdict deadlock'
    try_example deadlock 2 0 'verdict done'
    try_example message_passing 3 0 'verdict done'
    try_example message_passing_relaxed 48 1 'verdict race data'
    try_example peterson 4 0 'verdict done'
    try_example peterson_acquire_release 4 1 'verdict race inside'
    try_example ring 81 0 'out 360a' 'verdict done'
    try_example ring_relaxed_tail 81 1 'verdict race slots[0]'
    try_example seqlock 1 0 'verdict done'
    try_example store_buffering 2 0 'out 3020300a' 'verdict done'
    try_example store_buffering_fences 2 0 'verdict done'
    try_example ticket_lock 1 0 'out 360a' 'verdict done'
    try_example treiber_stack 1 0 'out 330a' 'verdict done'
}

try_all() {
    try_done
    try_found
    try_bound
    try_refused
    try_usage
    try_unread
    try_read_faults
    try_write_faults
    try_campaigns
    try_trials
    try_examples
}

# The program is there after the gate, as each of two compilers made it; else it is built here.
if [ ! -x "$crate/out/c11t" ]; then
    (cd "$crate" && rt run -- help) >"$room/log" 2>&1 || cat "$room/log"
fi
for program in "$crate/out/c11t" "$crate/out/c11t.by-rattle"; do
    [ ! -x "$program" ] || try_all
done
if [ ! -x "$crate/out/c11t" ]; then
    echo 'there is no program to be tried'
    failed=1
fi
echo "$passed passed, $failed failed"
[ "$failed" -eq 0 ]
