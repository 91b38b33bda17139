#!/usr/bin/env bash
# Runs the built program from outside, as a shell does: each exit status with what is written for it, and words, streams
# and files that no test inside the crates can have. Its last line is 'tools: N passed, M failed'; its status is 0 where
# nothing failed. The program is crates/strips/out/strips, or the first argument.
set -u
cd "$(dirname "$0")/.." || exit 1
program=${1:-crates/strips/out/strips}
[ -x "$program" ] || { echo "tools: no program at $program (run 'rt ci' first)"; exit 1; }
scratch=$(mktemp -d)
trap 'rm -rf "$scratch"' EXIT
passed=0
failed=0

# report NAME OK: counts a test, and names it where it failed
report() {
    if [ "$2" = yes ]; then passed=$((passed + 1)); else failed=$((failed + 1)); echo "failed: $1"; fi
}

# expect NAME STATUS OUTPUT COMPLAINS: compares the last run with its status, with a file of what it must write, and with
# whether standard error has just one line (yes) or none (no)
expect() {
    local ok=yes lines=0
    [ "$complains" = yes ] && lines=1
    [ "$status" = "$2" ] || { ok=no; echo "  status $status, not $2"; }
    cmp -s "$scratch/out" "$3" || { ok=no; echo "  written:"; head -c 400 "$scratch/out"; }
    [ "$(wc -l < "$scratch/err")" = "$lines" ] || { ok=no; echo "  standard error:"; head -c 400 "$scratch/err"; }
    report "$1" "$ok"
}

# run INPUT WORDS..: runs the program on a file
run() {
    local input=$1
    shift
    "$program" "$@" < "$input" > "$scratch/out" 2> "$scratch/err"
    status=$?
}

# answers NAME STATUS OUTPUT WORDS..: runs the program on the input as it stands, and compares all that it writes
answers() {
    local name=$1 wanted=$2 output=$3
    shift 3
    run "$scratch/input" "$@"
    printf '%s' "$output" > "$scratch/want"
    expect "$name" "$wanted" "$scratch/want"
}

# solves NAME FRONT WORDS..: runs the program on the input as it stands, compares the first lines of what it writes, and has
# the program check its own answer
solves() {
    local name=$1 ok=no
    printf '%s\n' "$2" > "$scratch/want"
    shift 2
    run "$scratch/input" "$@"
    cp "$scratch/out" "$scratch/answer"
    [ "$status" = 0 ] && head -n "$(wc -l < "$scratch/want")" "$scratch/answer" | cmp -s - "$scratch/want" && ok=yes
    report "$name" "$ok"
    cat "$scratch/input" "$scratch/answer" > "$scratch/checked"
    run "$scratch/checked" check
    ok=no
    [ "$status" = 0 ] && [ "$(head -n 1 "$scratch/out")" = accepted ] && ok=yes
    report "$name: its answer is accepted" "$ok"
}

# same_bytes NAME: has 1, 2 and 4 workers solve the input as it stands, with the greatest budget, so that it isn't reached: they
# come to the gain of one thread and write the same bytes, which the program accepts
same_bytes() {
    local workers gain ok
    run "$scratch/input" solve --budget 2000000
    gain=$(sed -n 2p "$scratch/out")
    for workers in 1 2 4; do
        run "$scratch/input" solve --budget 2000000 --workers "$workers"
        [ "$workers" = 1 ] && cp "$scratch/out" "$scratch/first"
        ok=no
        [ "$status" = 0 ] && [ "$(sed -n 2p "$scratch/out")" = "$gain" ] && cmp -s "$scratch/out" "$scratch/first" && ok=yes
        report "$1: the bytes of $workers workers" "$ok"
        cat "$scratch/input" "$scratch/out" > "$scratch/checked"
        run "$scratch/checked" check
        ok=no
        [ "$status" = 0 ] && [ "$(head -n 1 "$scratch/out")" = accepted ] && ok=yes
        report "$1: what $workers workers write is accepted" "$ok"
    done
}

# changed FILE NUMBER LINES..: a file with other lines in the place of the one with that number
changed() {
    head -n $(($2 - 1)) "$1"
    [ $# -gt 2 ] && printf '%s\n' "${@:3}"
    tail -n +$(($2 + 1)) "$1"
}

# instance TIME GAINS..: an instance of these gains and the strip lines on standard input, with the same manoeuvre time from
# each strip to each other
instance() {
    local time=$1 strips count
    shift
    strips=$(cat)
    count=$(printf '%s\n' "$strips" | wc -l)
    printf 'orbit 1\nrequests %s\n' $#
    printf 'r %s\n' "$@"
    printf 'strips %s\n%s\nmanoeuvres\n' "$count" "$strips"
    awk -v n="$count" -v time="$time" 'BEGIN {
        for (x = 0; x < 2 * n; x++)
            for (y = 0; y < 2 * n; y++)
                printf "%d%s", int(x / 2) == int(y / 2) ? 0 : time, y < 2 * n - 1 ? " " : "\n"
    }'
    echo end
}

printf '' > "$scratch/nothing"
complains=no

# Done: an optimal plan, a score, an instance that is made
run examples/two_strips.txt solve
printf '%s\n' Optimal 'gain 2000/20' 'strips 2' '0 0 0' '7 1 0' 'labels 2' log 'cut 6' 'F 0' 'B 2' 'C F 0' 'C B 0' end > "$scratch/want"
expect "solve writes an optimal plan" 0 "$scratch/want"
{ cat examples/two_strips.txt; printf 'strips 2\n0 0 0\n7 1 0\nend\n'; } > "$scratch/scored"
run "$scratch/scored" score
printf 'gain 2000/20\n' > "$scratch/want"
expect "score tells the gain" 0 "$scratch/want"
run /dev/null make --seed 7 --size 2
printf '%s\n' 'orbit 1' 'requests 1' 'r 49' 'strips 2' 's 0 - 67 30 83 24 1 0 20' 's 0 - 58 127 170 33 1 0 20' manoeuvres \
    '0 0 19 24' '0 0 24 19' '19 24 0 0' '24 19 0 0' end > "$scratch/want"
expect "make writes the instance of a seed and a size" 0 "$scratch/want"

run /dev/null trial --seed 7 --size 2
printf 'trial 7 2\nOptimal\ngain 122500/20\naccepted\n' > "$scratch/want"
expect "trial makes, solves and checks" 0 "$scratch/want"

# Best: the budget is reached
run examples/pass.txt solve --budget 1
ok=no
[ "$status" = 1 ] && [ "$(head -n 1 "$scratch/out")" = Best ] && [ "$(tail -n 1 "$scratch/out")" = 'labels 1' ] && ok=yes
report "a search stops at its budget" "$ok"

# Workers: the same gain, and an answer that is accepted
run examples/pass.txt solve
gain=$(sed -n 2p "$scratch/out")
for workers in 1 4; do
    run examples/pass.txt solve --workers "$workers"
    ok=no
    [ "$status" = 0 ] && [ "$(sed -n 2p "$scratch/out")" = "$gain" ] && ok=yes
    report "$workers workers come to the same gain" "$ok"
    cat examples/pass.txt "$scratch/out" > "$scratch/checked"
    run "$scratch/checked" check
    ok=no
    [ "$status" = 0 ] && [ "$(head -n 1 "$scratch/out")" = accepted ] && ok=yes
    report "what $workers workers write is accepted" "$ok"
done

# The same bytes for each number of workers: two instances that are made, one with stereo pairs, and eleven strips of which
# nine fit in any order, where so many labels wait at once that all workers are needed
for size in 20 40; do
    run /dev/null make --seed 7 --size "$size"
    cp "$scratch/out" "$scratch/input"
    same_bytes "a made instance of $size strips"
done
cp examples/survey.txt "$scratch/input"
same_bytes examples/survey.txt
for i in 0 1 2 3 4 5 6 7 8 9 10; do echo "s $((i % 3)) - $((3 + i * 5 % 7)) 0 72 $((7 + i % 4)) 1 0 10"; done |
    instance 1 10 20 30 > "$scratch/input"
same_bytes "eleven strips in any order"
ok=no
[ "$(sed -n 's/^labels //p' "$scratch/first")" -ge 2000 ] && ok=yes
report "eleven strips need many labels" "$ok"

# Help and version: on standard output, whatever the other words
for word in --help --version; do
    run /dev/null solve --budget 0 "$word"
    ok=no
    [ "$status" = 0 ] && [ "$(head -c 6 "$scratch/out")" = strips ] && [ ! -s "$scratch/err" ] && ok=yes
    report "$word" "$ok"
done

# Refused and Rejected: on standard output, at their place
printf 'orbits 1\n' > "$scratch/input"
run "$scratch/input" solve
printf 'refused 2 line 1\n' > "$scratch/want"
expect "a wrong first word is refused" 3 "$scratch/want"
{ cat examples/two_strips.txt; printf 'strips 1\n6 1 0\nend\n'; } > "$scratch/input"
run "$scratch/input" score
printf 'rejected early at 0\n' > "$scratch/want"
expect "a start before its window is rejected" 4 "$scratch/want"

# check: an answer with its log is accepted, or named are the first rule that is broken and its first place
cat examples/one_strip.txt examples/one_strip.answer > "$scratch/input"
run "$scratch/input" check
printf 'accepted\ngain 20/20\n' > "$scratch/want"
expect "check accepts a proof" 0 "$scratch/want"
sed 's/^gain 20/gain 19/' "$scratch/input" > "$scratch/changed"
run "$scratch/changed" check
printf 'rejected rule 2 at 0\n' > "$scratch/want"
expect "check names the rule that is broken" 4 "$scratch/want"
sed '$d' "$scratch/input" > "$scratch/changed"
run "$scratch/changed" check
printf 'rejected rule 0 at 9\n' > "$scratch/want"
expect "check names the line that can't stand" 4 "$scratch/want"

# Instances whose text is wrong: the number of the cause and the first line at which it stands. The rows change a line of the
# two strips.
while IFS='|' read -r number line cause; do
    changed examples/two_strips.txt "$number" "$(printf '%b' "$line")" > "$scratch/input"
    answers "refused: $line" 3 "refused $cause"$'\n' solve
done << 'rows'
1|orbit one|3 line 1
1|orbit 2|12 line 1
1|orbit 99999999999999999999|12 line 1
2|requests 65|5 line 2
2|requests 9999999999999999999999999999999999999999|5 line 2
3|r 010|3 line 3
3|r 1000001|4 line 3
3|r 1000000000000000000000000000000000000000|4 line 3
3|r 10 1|6 line 3
3|r 1\xff|3 line 3
3|# the one request\n\n\t\r\nr x|3 line 6
5|s 0 0 4 0 0 5 1 0 5|8 line 5
5|s 0 1 4 0 0 5 1 0 5|7 line 5
5|s 1 - 4 0 0 5 1 0 5|4 line 5
5|s 0 2 4 0 0 5 1 0 5|4 line 5
5|s 0 - 0 0 0 5 1 0 5|4 line 5
5|s 0 - 1000001 0 0 5 1 0 5|4 line 5
5|s 0 - 4 0 1000000001 5 1 0 5|4 line 5
5|s 0 - 4 0 0 0 1 0 5|4 line 5
5|s 0 - 4 0 0 5 1 0 1000001|4 line 5
5|s 0 - 4 0 0 5 1 0|1 line 5
8|0 3 2 2|10 line 8 entry 0 1 3
8|0 0 1000001 2|4 line 8
8|0 0 2 2 2|6 line 8
12||1 line 13
12|end\nend|6 line 13
rows
printf '' > "$scratch/input"
answers "refused: no bytes" 3 $'refused 1 line 1\n' solve
head -n 11 examples/two_strips.txt > "$scratch/input"
answers "refused: no end" 3 $'refused 1 line 12\n' solve
{ head -n 8 examples/two_strips.txt; printf '0 0 2'; } > "$scratch/input"
answers "refused: a row that breaks off" 3 $'refused 1 line 9\n' solve
tr '\n' '\r' < examples/two_strips.txt > "$scratch/input"
answers "refused: CR for LF" 3 $'refused 6 line 1\n' solve
changed examples/two_strips.txt 2 'requests 2' 'r 10' | sed 's/^s 0 - 4/s 0 1 4/; s/^s 0 - 6/s 1 0 6/' > "$scratch/input"
answers "refused: twins of two requests" 3 $'refused 9 line 6\n' solve
head -c 16777216 /dev/zero | tr '\0' ' ' > "$scratch/input"
answers "the largest input is read" 3 $'refused 1 line 2\n' solve
printf ' ' >> "$scratch/input"
answers "a larger one is refused" 3 $'refused 13 line 0\n' solve

# Each limit of a number is taken
while IFS='|' read -r number line; do
    changed examples/two_strips.txt "$number" "$line" > "$scratch/input"
    run "$scratch/input" solve
    ok=no
    [ "$status" = 0 ] && ok=yes
    report "taken: $line" "$ok"
done << 'rows'
3|r 0
3|r 1000000
5|s 0 - 1000000 0 0 5 1 0 5
5|s 0 - 4 1000000000 0 5 1000000000 0 5
5|s 0 - 4 0 1000000000 5 1 1000000000 5
5|s 0 - 4 0 0 1 1 0 1
5|s 0 - 4 0 0 1000000 1 0 1000000
rows

# A detour may take as long as the direct manoeuvre, and no less
detour='0 0 3 12 20 12
0 0 12 12 12 12
12 12 0 0 4 12
12 12 0 0 12 12
12 12 12 12 0 0
12 12 12 12 0 0'
strip='s 0 - 1 0 100 5 0 100 5'
printf '%s\n' 'orbit 1' 'requests 1' 'r 1' 'strips 3' "$strip" "$strip" "$strip" manoeuvres "$detour" end > "$scratch/input"
answers "a detour that saves time" 3 $'refused 11 line 9 triple 0 2 4\n' solve
sed -i 's/^0 0 3 12 20 12$/0 0 3 12 12 12/' "$scratch/input"
solves "a detour that takes as long" $'Optimal\ngain 60/20\nstrips 3' solve

# Plans that are scored. The rows are what follows the two strips.
while IFS='|' read -r plan wanted output; do
    { cat examples/two_strips.txt; printf '%b' "$plan"; } > "$scratch/input"
    answers "scored: $plan" "$wanted" "$output"$'\n' score
done << 'rows'
strips 0\nend\n|0|gain 0/20
strips 1\n0 2 0\nend\n|4|rejected strip at 0
strips 2\n0 0 0\n0 0 0\nend\n|4|rejected twice at 1
strips 1\n8 1 0\nend\n|4|rejected late at 0
strips 1\n0 0 1\nend\n|4|rejected early at 0
strips 2\n7 1 0\n0 0 0\nend\n|4|rejected manoeuvre at 1
strips 1\n0 0\nend\n|4|rejected text at 2
strips 1\n0 64 0\nend\n|4|rejected text at 2
strips 1\n0 0 2\nend\n|4|rejected text at 2
strips 00\nend\n|4|rejected text at 1
strips 65\nend\n|4|rejected text at 1
strips 0\nend|4|rejected text at 2
strips 0\nend\n\n|4|rejected text at 3
|4|rejected text at 1
rows
printf '%s\n' 's 0 1 5 0 0 5 1 0 5' 's 0 0 5 1 0 5 20 20 5' | instance 2 10 > "$scratch/input"
printf 'strips 2\n0 0 0\n20 1 1\nend\n' >> "$scratch/input"
answers "scored: twins in two directions" 4 $'rejected twin at 0\n' score

# Logs that are checked: the rule that is broken and its first place. The rows change a line of a good answer.
while IFS='|' read -r number line output; do
    { cat examples/one_strip.txt; changed examples/one_strip.answer "$number" "$(printf '%b' "$line")"; } > "$scratch/input"
    answers "checked: $line" 4 "rejected rule $output"$'\n' check
done << 'rows'
1|Best|0 at 1
2|gain 020/20|0 at 2
2|gain 1280000000000001/20|0 at 2
4|11 0 0|1 at 0
5|labels 2000000|0 at 9
5|labels 2000001|0 at 5
5|labels 2\nlog\ncut 7\nB 0|0 at 9
7|cut 1001000000|3 at 2
7|cut 1001000001|0 at 7
8|B 0 0|3 at 2
8|B 1|3 at 2
8|B 2|3 at 2
8|B 128|0 at 8
8|B 0\nC F 0|4 at 0
8|B 0\nC B 1|4 at 0
8|B 0\nR B 0 0|5 at 0
8|B 0\nC B 0\nC B 0|6 at 1
9|end\nend|0 at 10
rows
rejects() {
    { cat examples/one_strip.txt; printf '%s\n' "${@:2}"; } > "$scratch/input"
    answers "checked: rule $1" 4 "rejected rule $1"$'\n' check
}
rejects '3 at 3' Optimal 'gain 20/20' 'strips 1' '10 0 0' 'labels 2' log 'cut 7' 'B 0' 'B 0' end
rejects '7 at 1' Optimal 'gain 20/20' 'strips 1' '10 0 0' 'labels 0' log 'cut 7' end
rejects '6 at 0' Optimal 'gain 0/20' 'strips 0' 'labels 1' log 'cut 7' 'B 0' 'C B 0' end
rejects '8 at 0' Optimal 'gain 0/20' 'strips 0' 'labels 1' log 'cut 7' 'B 0' end
{ cat examples/one_strip.txt; changed examples/one_strip.answer 8 'B 0' 'C B 0'; } > "$scratch/input"
answers "checked: a label that is cut at its bound" 0 $'accepted\ngain 20/20\n' check
# Of two labels that retire each other the second can't be retired by the first
strip='s 0 - 1 0 100 5 1 0 5'
{
    printf '%s\n' "$strip" "$strip" "$strip" | instance 2 1
    printf '%s\n' Optimal 'gain 60/20' 'strips 3' '0 0 0' '7 1 0' '14 2 0' 'labels 2' log 'cut 52' 'F 0 2 4' 'F 2 0 4' 'R F 0 1' \
        'R F 1 0' end
} > "$scratch/input"
answers "checked: labels that retire each other" 4 $'rejected rule 5 at 1\n' check

# Instances that are solved
while IFS='|' read -r first second output; do
    sed "s/^s 0 - 4 .*/$first/; s/^s 0 - 6 .*/$second/" examples/two_strips.txt > "$scratch/input"
    answers "solved: $second" 0 "$(printf '%b' "$output")"$'\n' solve
done << 'rows'
s 0 - 4 0 0 5 1 0 5|s 0 - 6 6 6 5 1 0 5|Optimal\ngain 600/20\nstrips 1\n6 1 0\nlabels 2\nlog\ncut 5\nF 0\nB 2\nC F 0\nC B 0\nend
s 0 - 4 0 0 5 1 0 5|s 0 - 6 1 0 5 1 0 5|Optimal\ngain 200/20\nstrips 1\n0 0 0\nlabels 1\nlog\ncut 3\nF 0\nC F 0\nend
s 0 - 7 0 0 5 1 0 5|s 0 - 3 1 0 5 1 0 5|Optimal\ngain 800/20\nstrips 1\n0 0 0\nlabels 1\nlog\ncut 3\nF 0\nC F 0\nend
rows
printf '%s\n' 'orbit 1' 'requests 0' 'strips 0' manoeuvres end > "$scratch/input"
answers "solved: nothing" 0 $'Optimal\ngain 0/20\nstrips 0\nlabels 0\nlog\ncut 0\nend\n' solve
{ printf '#\xff\n'; changed examples/two_strips.txt 3 'r  10'; } > "$scratch/input"
solves "solved: a comment of any bytes, and a second blank" $'Optimal\ngain 2000/20\nstrips 2\n0 0 0\n7 1 0\nlabels 2' solve
printf '%s\n' 's 0 - 1 1000000000 1000000000 1000000 1 0 5' | instance 0 1 > "$scratch/input"
answers "solved: at the end of time" 0 \
    $'Optimal\ngain 20/20\nstrips 1\n1000000000 0 0\nlabels 1\nlog\ncut 500500000\nB 0\nC B 0\nend\n' solve
# What gains less at first gains more at last, wherever the orbit is cut
printf '%s\n' 's 0 - 10 0 0 5 1 0 5' 's 1 - 4 0 0 5 1 0 5' 's 2 - 1 10 10 5 1 0 5' 's 1 - 6 20 20 5 1 0 5' |
    instance 2 2 10 1 > "$scratch/input"
front=$'Optimal\ngain 2020/20\nstrips 3\n0 1 0\n10 2 0\n20 3 0'
solves "solved: four strips" "$front" solve
solves "solved: four strips from the end" "$front" solve --cut 0
solves "solved: four strips from the front" "$front" solve --cut 25
grep -q '^B' "$scratch/answer" && ok=no || ok=yes
report "from the front there is no label of the other side" "$ok"
# Twins of which none can follow the other, and a pair that stands on both sides of the cut
printf '%s\n' 's 0 1 5 0 0 5 1 0 5' 's 0 0 5 3 3 5 20 20 5' 's 1 - 2 10 10 5 1 0 5' | instance 2 10 1 > "$scratch/input"
solves "solved: twins apart" $'Optimal\ngain 40/20\nstrips 1\n10 2 0' solve
sed 's/$/\r/; 1s/$/\n\r/' examples/stereo_pair.txt > "$scratch/input"
solves "solved: a stereo pair, with CR and LF" "$(run examples/stereo_pair.txt solve; head -n 6 "$scratch/out")" solve
ok=no
tr '\n' ';' < "$scratch/answer" | grep -Eq '^Optimal;gain 1300/20;strips 3;0 0 ([01]);40 2 [01];100 1 \1;' && ok=yes
report "the pair has one direction" "$ok"
# Twelve strips in any order: a label stands for each set and last strip, and not for each order
for _ in 1 2 3 4 5 6 7 8 9 10 11 12; do echo 's 0 - 10 0 110 10 1 0 10'; done | instance 0 1 > "$scratch/input"
solves "solved: twelve strips" $'Optimal\ngain 2400/20\nstrips 12' solve --cut 120 --budget 150000
ok=no
[ "$(sed -n 's/^labels //p' "$scratch/answer")" -le 150000 ] && ok=yes
report "twelve strips need few labels" "$ok"
for budget in '--budget 3' '--budget=3'; do
    # shellcheck disable=SC2086
    run "$scratch/input" solve --cut 120 $budget
    ok=no
    [ "$status" = 1 ] && [ "$(head -n 1 "$scratch/out")" = Best ] && [ "$(tail -n 1 "$scratch/out")" = 'labels 3' ] && ok=yes
    report "twelve strips with $budget" "$ok"
    { cat "$scratch/input"; sed -n '/^strips/,/^labels/p' "$scratch/out" | sed '$d'; echo end; } > "$scratch/scored"
    gain=$(sed -n 2p "$scratch/out")
    run "$scratch/scored" score
    ok=no
    [ "$status" = 0 ] && [ "$(cat "$scratch/out")" = "$gain" ] && ok=yes
    report "the plan gains what is written" "$ok"
done
# The greatest gain: 64 strips of the greatest area and one request of the greatest gain
for i in $(seq 0 63); do echo "s 0 - 1000000 ${i}0 ${i}0 1 1 0 1"; done | sed 's/ 00 00 / 0 0 /' | instance 1 1000000 > "$scratch/input"
solves "solved: 64 strips" $'Optimal\ngain 1280000000000000/20\nstrips 64' solve
{ echo 'strips 64'; for i in $(seq 0 63); do echo "$((10 * i)) $i 0"; done; echo end; } >> "$scratch/input"
answers "scored: 64 strips" 0 $'gain 1280000000000000/20\n' score

# Instances that are made: each size can be solved, the words may stand otherwise, and a trial is the same each time
for words in '--size 0' '--size 1' '--size 5' '--size 8' '--seed 7 --size 20' '--seed 0 --size 7' '--seed 4294967295 --size 12'; do
    # shellcheck disable=SC2086
    run /dev/null make $words
    cp "$scratch/out" "$scratch/input"
    solves "made and solved: $words" Optimal solve
done
run /dev/null make --seed 4294967295 --size 64
ok=no
[ "$status" = 0 ] && [ "$(tail -n 1 "$scratch/out")" = end ] && ok=yes
report "the largest is made" "$ok"
run /dev/null make --seed 7 --size 2
cp "$scratch/out" "$scratch/want"
for words in '--size=02 make --seed +7' 'make --size 2 --seed 7 --cut 5' '--seed 7 --size 2 -- make'; do
    # shellcheck disable=SC2086
    run /dev/null $words
    expect "$words" 0 "$scratch/want"
done
run /dev/null trial --seed 7 --size 64 --budget 4000
cp "$scratch/out" "$scratch/want"
first=$status
run /dev/null trial --seed 7 --size 64 --budget 4000
expect "a trial writes the same each time" "$first" "$scratch/want"
run /dev/null trial --size 0 --workers 32
printf 'trial 1 0\nOptimal\ngain 0/20\naccepted\n' > "$scratch/want"
expect "a trial of nothing" 0 "$scratch/want"

# Usage: nothing is read or written, and standard error has a line
complains=yes
run examples/two_strips.txt
expect "no words" 2 "$scratch/nothing"
run examples/two_strips.txt solv
expect "an unknown command" 2 "$scratch/nothing"
grep -q "no command 'solv'" "$scratch/err" && ok=yes || ok=no
report "the unknown command is named" "$ok"
run examples/two_strips.txt make --seed 1 --size 2 --seed 3
expect "an option that is given twice" 2 "$scratch/nothing"
run examples/two_strips.txt make --seed 1 --size 2 a b c d e f g h
expect "words that are no options" 2 "$scratch/nothing"
run examples/two_strips.txt $'\xff\xfe'
expect "words that aren't UTF-8" 2 "$scratch/nothing"
while read -r words; do
    # shellcheck disable=SC2086
    run examples/two_strips.txt $words
    expect "no job: $words" 2 "$scratch/nothing"
done << 'rows'
Solve
solve solve
solve x
solve --workers 33
solve --budget 0
solve --budget 2000001
solve --cut 1001000001
solve --cut
solve --cut 7 --cut 8
check --cut -1
check --seed 4294967296
score --size 65
make --size=
make --size=65
make --size ++3
make --size 3x
make --size 3 --size=3
make --seed 18446744073709551617
make -s 3
make -- --size 3
--size 3
--size make
-h
rows

# ReadFault: a directory can be opened, and not read; a closed standard input neither
run . solve
expect "a directory as standard input" 5 "$scratch/nothing"
"$program" solve <&- > "$scratch/out" 2> "$scratch/err"
status=$?
expect "a closed standard input" 5 "$scratch/nothing"

# WriteFault: a standard output that is closed, and one that is full
"$program" solve < examples/two_strips.txt >&- 2> "$scratch/err"
status=$?
printf '' > "$scratch/out"
expect "a closed standard output" 6 "$scratch/nothing"
if [ -w /dev/full ]; then
    "$program" solve < examples/two_strips.txt > /dev/full 2> "$scratch/err"
    status=$?
    expect "a full standard output" 6 "$scratch/nothing"
fi

# A closed standard error hides the line alone
"$program" solv < /dev/null > "$scratch/out" 2>&-
status=$?
printf 'x\n' > "$scratch/err"
expect "a closed standard error" 2 "$scratch/nothing"

# Every example is solved, and the program accepts its own answer
complains=no
for example in examples/*.txt; do
    run "$example" solve
    first=$(head -n 1 "$scratch/out")
    ok=no
    [ "$status" = 0 ] && [ "$first" = Optimal ] && ok=yes
    report "$example is solved" "$ok"
    cat "$example" "$scratch/out" > "$scratch/checked"
    run "$scratch/checked" check
    ok=no
    [ "$status" = 0 ] && [ "$(head -n 1 "$scratch/out")" = accepted ] && ok=yes
    report "the answer to $example is accepted" "$ok"
done

# Every answer beside an example has a log that is a proof
for answer in examples/*.answer; do
    cat "${answer%.answer}.txt" "$answer" > "$scratch/checked"
    run "$scratch/checked" check
    ok=no
    [ "$status" = 0 ] && [ "$(head -n 1 "$scratch/out")" = accepted ] && ok=yes
    report "$answer is a proof" "$ok"
done

# Every plan beside an example is feasible
for plan in examples/*.plan; do
    cat "${plan%.plan}.txt" "$plan" > "$scratch/scored"
    run "$scratch/scored" score
    ok=no
    [ "$status" = 0 ] && ok=yes
    report "$plan is feasible" "$ok"
done

# Want of memory, hostile logs, and texts that announce more than they have
if command -v python3 > /dev/null && command -v "${CC:-cc}" > /dev/null; then
    ok=no
    python3 -B tools/refused_memory.py "$program" && ok=yes
    report "requests for memory that are refused in turn" "$ok"
    ok=no
    python3 -B tools/hostile.py "$program" && ok=yes
    report "hostile logs, and texts that announce more than they have" "$ok"
else
    echo "tools: python3 or a C compiler isn't there, so no request for memory was refused and no hostile log checked"
fi

# The scripts, which no claim needs
if command -v python3 > /dev/null; then
    ok=no
    python3 -B tools/test_scripts.py "$program" && ok=yes
    report "the scripts in Python" "$ok"
else
    echo "tools: python3 isn't there, so its scripts weren't tested"
fi

echo "tools: $passed passed, $failed failed"
[ "$failed" = 0 ]
