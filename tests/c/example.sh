# The example programs on the example queues. Usage: example.sh PLAN SPLIT
set -e
plan=$1
split=$2

# expect NAME TEXT PROGRAM ..: what a program prints
expect() {
    name=$1
    wanted=$2
    shift 2
    got=$("$@" || true)
    if [ "$got" != "$wanted" ]; then
        printf 'FAILED %s: %s\nwanted: %s\n' "$name" "$got" "$wanted"
        exit 1
    fi
}
# A's text, changed by sed, as a message
like_a() { python3 tools/queue_text.py show examples/case-a.queue | sed "$1" | python3 tools/queue_text.py pack; }

expect A "cost 70
order 2 1 3" "$plan" examples/case-a.queue
expect B "cost 200
order 1 3 2" "$plan" examples/case-b.queue
none="refused 17: No order of the jobs is permitted, or for two cutters no split of them."
expect E "$none" "$plan" examples/case-e.queue
expect G "cost 0
order" "$plan" examples/case-g.queue
expect "chapter 5" "cost 1323
order 4 5 7 9 13 15 3 6 11 12 1 2 8 10 14" "$plan" examples/chapter5-goal1.queue
printf 'QS\001' | expect "standard input" "refused 2: The bytes end before a number has its last group." "$plan"

# Splits of A by hand: job 2 takes 10 seconds, jobs 1 and 3 take 30, and less than 30 is not to be had; under goal 2 job 1
# comes to 30 pupil-seconds, jobs 3 and 2 to 90.
like_a 's/shift 1/shift 4/' | expect "A split" "cost 30
first 2
second 1 3" "$split" 0
like_a 's/shift 1/shift 2/;s/goal 1/goal 2/' | expect "B split" "cost 120
first 1
second 3 2" "$split" 0
expect "A as it stands, split" "refused 19: The shift plus 1 is under the number of jobs, or a place is barred to a kind." \
    "$split" 0 examples/case-a.queue
like_a 's/shift 1/shift 2/' | expect "a third kind of two" "refused 20: The second cutter's start is over the number of kinds." \
    "$split" 3
expect "G split" "cost 0
first
second" "$split" 2 examples/case-g.queue
printf 'QS\001' | expect "no whole message, split" "refused 2: The bytes end before a number has its last group." "$split" 0
expect "no second start" "" "$split" examples/case-a.queue 2> /dev/null
# The least of all 4096 ways to divide the twelve jobs, each with every order on either cutter; the next is 740.
python3 tools/queue_text.py pack examples/two-cutters.txt | expect "two cutters" "cost 730
first 1 4 6 3 7 10
second 9 11 2 5 8 12" "$split" 0

# Never card after acrylic, by hand: with acrylic last the changes of kind cost least, 3 x 60 + 190 + 120 + 240 + 2 x 150.
# On two cutters the cold one cannot begin with acrylic, and all acrylic by itself comes to 250 + 2 x 150.
python3 tools/queue_text.py pack examples/card-after-acrylic.txt | expect "never card after acrylic" "cost 1030
order 2 5 7 3 6 1 4 8" "$plan"
python3 tools/queue_text.py pack examples/card-after-acrylic.txt | expect "never, two cutters" "cost 550
first 1 4 8
second 2 5 7 3 6" "$split" 0
# A, where 1 and 2 are never side by side, and 1 never follows 1: no order for one cutter; for two, with job 2 on one, none
# for jobs 1 and 3 on the other.
like_a 's/shift 1/shift 2/;s/gaps 20 50/gaps never never/;s/gaps 40/gaps never/' | expect "never, no split" "$none" "$split" 0
like_a 's/gaps 20 50/gaps 20 never/;s/gaps 40/gaps never/' | expect "never, no order" "$none" "$plan"
like_a 's/shift 1/shift 2/;s/gaps 20 50/gaps 20 never/;s/gaps 40/gaps never/' | expect "never, a split and no order" "cost 30
first 2
second 1 3" "$split" 0
echo "example: 19 outputs agree"
