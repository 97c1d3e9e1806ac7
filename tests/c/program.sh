# The program's output: 01's four lines for A, every refusal that it can meet with its group, and the lengths of its table
# and its input. Usage: program.sh PROGRAM
set -e
program=$1

# expect NAME TEXT: what the program prints for the message on standard input
expect() {
    got=$("$program")
    if [ "$got" != "$2" ]; then
        printf 'program, %s: expected\n%s\ngot\n%s\n' "$1" "$2" "$got"
        exit 1
    fi
}

text() { python3 tools/queue_text.py "$@"; }
packed() { text pack "tests/c/queues/$1.txt"; }
a=$(text show examples/case-a.queue)
# A's text, changed by sed, as a message
like_a() { printf '%s\n' "$a" | sed "$1" | text pack; }

expect A "cost 70 kept 7
1 2 2 10
2 1 1 50
3 3 1 70" < examples/case-a.queue
expect B "cost 200 kept 7
1 1 1 10
2 3 1 30
3 2 2 80" < examples/case-b.queue
expect "no jobs" "cost 0 kept 0" < examples/case-g.queue
expect "chapter 5" "cost 1323 kept 523
1 4 2 80
2 5 2 160
3 7 2 240
4 9 2 320
5 13 2 400
6 15 2 480
7 3 3 597
8 6 3 687
9 11 3 777
10 12 3 867
11 1 1 939
12 2 1 1035
13 8 1 1131
14 10 1 1227
15 14 1 1323" < examples/chapter5-goal1.queue

# message: 1 to 4 and 14
printf '' | expect 1 "refused 1 message"
head -c 22 examples/case-a.queue | expect 2 "refused 2 message"
printf 'QS\201\000' | expect "3, ended by 00" "refused 3 message"
like_a 's/gaps 10/gaps 2097152/' | expect "3, four groups" "refused 3 message"
printf 'QS\002' | expect 4 "refused 4 message"
{ cat examples/case-a.queue; printf '\000'; } | expect 14 "refused 14 message"
{ cat examples/case-a.queue; head -c 5000 /dev/zero; } | expect "14, a long input" "refused 14 message"
# contents: 5 to 13
echo gaps | text pack | expect 5 "refused 5 contents"
like_a 's/goal 1/goal 3/' | expect 6 "refused 6 contents"
like_a 's/shift 1/shift 61/' | expect 7 "refused 7 contents"
like_a 's/start 0/start 3/' | expect 8 "refused 8 contents"
like_a 's/gaps 10/gaps 65537/' | expect 9 "refused 9 contents"
like_a 's/pupils 3/pupils 1001/' | expect 10 "refused 10 contents"
like_a 's/places 1-60/places 0-60/' | expect 11 "refused 11 contents"
like_a "s/jobs.*/jobs $(yes 1 | head -n 61 | tr '\n' ' ')/" | expect 12 "refused 12 contents"
like_a 's/jobs 1 2 1/jobs 1 2 3/' | expect 13 "refused 13 contents"
# order
expect 17 "refused 17 order" < examples/case-e.queue
like_a 's/gaps 20 50/gaps 20 never/;s/gaps 40/gaps never/' | expect "17, by nevers alone" "refused 17 order"
# never: A without 1 after 2 has the order 1 3 2 alone, and two states fewer are kept
like_a 's/gaps 40/gaps never/' | expect "A without 1 after 2" "cost 80 kept 5
1 1 1 10
2 3 1 30
3 2 2 80"
like_a 's/gaps 10 10/gaps never never/;s/start 0/start 2/' | expect "a cold row that is not read" "cost 90 kept 7
1 2 2 30
2 1 1 70
3 3 1 90"

# The table has 8192 entries. The texts say how their figures are worked out by hand.
packed entries-8192 | expect "8192 entries" "cost 505 kept 6912
1 1 1 5
2 5 1 15
3 9 1 25
4 13 1 35
5 16 1 45
6 19 1 55
7 22 1 65
8 2 2 165
9 6 2 175
10 10 2 185
11 14 2 195
12 17 2 205
13 20 2 215
14 23 2 225
15 3 3 325
16 7 3 335
17 11 3 345
18 15 3 355
19 18 3 365
20 21 3 375
21 24 3 385
22 4 4 485
23 8 4 495
24 12 4 505"
# room
packed entries-8200 | expect "16, 8200 entries" "refused 16 room"

# The input has 180 bytes: an accepted message fills 178 of them, and a last kind of three bytes all.
[ "$(packed bytes-178 | wc -c)" -eq 178 ] || { echo "program: bytes-178 is of another length"; exit 1; }
packed bytes-178 | expect "178 bytes" "cost 1200000 kept 178
$(awk 'BEGIN { for (p = 1; p <= 60; p++) print p, p, (p < 60 ? 2 : 5), 20000 * p }')"
{ packed bytes-178; printf '\000'; } | expect "14, 179 bytes" "refused 14 message"
sed '/^jobs/s/5$/16384/' tests/c/queues/bytes-178.txt | text pack | expect "13, 180 bytes" "refused 13 contents"

echo "program: 29 outputs agree"
