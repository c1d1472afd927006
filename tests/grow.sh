# For tests/run: the program `grow` from outside, by whole bytes. GROW=PROGRAM tries another program in its place.
grow=${GROW:-crates/grow/out/grow}

# grown WORDS..: the program with these words, its output in $made/out and $made/err
grown() {
    timeout 10 "$grow" "$@" >"$made/out" 2>"$made/err" || echo "status $?" >>"$made/err"
}

# told_growth OUT WORDS..: standard output is that line, and standard error is empty
told_growth() {
    echo "$1" >"$made/should"
    shift
    grown "$@"
    judge "grow $*" "$made/should" "$made/nothing"
}

# refused_word NUMBER WORDS..: refused with 3, and standard error names the word of this number and its rule
refused_word() {
    printf 'refused\t3\n' >"$made/should"
    case $1 in
    3 | 6) echo "grow: word $1: a corner not 1 to 4" ;;
    *) echo "grow: word $1: a coordinate outside the rule: it is a whole number from 0 to 10000, with no leading zero" ;;
    esac >"$made/explained"
    number=$1
    shift
    grown "$@"
    judge "grow, word $number of$(printf ' "%s"' "$@")" "$made/should" "$made/explained"
}

# ---- Known answers, whichever label is named first
while IFS='|' read -r one two growth; do
    told_growth "$growth" $one $two
    told_growth "$growth" $two $one
done <<'END'
10 10 3|10 14 1|never
10 14 1|10 20 1|12
0 0 1|3 0 2|3
0 0 1|3 0 1|6
5 5 1|5 5 3|0
0 0 1|10000 10000 1|20000
0 0 1|10000 10000 3|10000
10000 10000 1|0 0 3|never
0 0 2|3 0 1|never
0 0 1|3 4 3|4
0 0 1|3 4 1|8
0 0 1|3 4 4|6
0 0 1|3 4 2|8
7 7 1|7 8 4|1
7 7 4|7 8 1|never
END

# ---- One place given twice: 0, at whatever corners
for c in 1 2 3 4; do
    for e in 1 2 3 4; do
        timeout 10 "$grow" 0 10000 $c 0 10000 $e
        timeout 10 "$grow" 1234 5678 $c 1234 5678 $e
    done
done >"$made/out" 2>"$made/err"
seq 32 | sed 's/.*/0/' >"$made/should"
judge 'grow, one place twice' "$made/should" "$made/nothing"

# ---- Over one distance along x: labels that go the same way grow to twice it, labels that face each other to it, and others never meet;
# and along y likewise
distances=$(awk 'BEGIN { for (d = 1; d <= 10000; d += 1 + (7 * d) % 61) print d }'; echo 9 10 99 100 999 1000 4999 5000 9999 10000)
for d in $distances; do
    timeout 10 "$grow" 0 6 1 "$d" 6 4
    timeout 10 "$grow" 0 6 1 "$d" 6 2
    timeout 10 "$grow" 0 6 2 "$d" 6 1
    timeout 10 "$grow" 6 0 2 6 "$d" 1
    timeout 10 "$grow" 6 0 2 6 "$d" 3
    timeout 10 "$grow" 6 0 3 6 "$d" 2
done >"$made/out" 2>"$made/err"
for d in $distances; do printf '%s\n' "$((2 * d))" "$d" never "$((2 * d))" "$d" never; done >"$made/should"
judge 'grow, distances' "$made/should" "$made/nothing"

# ---- Against the rule by another hand: the distance along an axis, twice where the labels go the same way, none where they face away.
# Numbers of every length in every word at all corners; the ends of the range in every word; and each number of the range in some word
by_rule() {
    awk 'function along(a, a_up, b, b_up) {
            if (a_up == b_up) return 2 * (a < b ? b - a : a - b)
            return a_up ? b - a : a - b
        }
        {
            x = along($1, $3 == 1 || $3 == 4, $4, $6 == 1 || $6 == 4)
            y = along($2, $3 <= 2, $5, $6 <= 2)
            print x < 0 || y < 0 ? "never" : x < y ? y : x
        }'
}
awk 'function number() { return int(rand() * 10 ^ int(1 + 5 * rand())) % 10001 }
    BEGIN {
        srand(3)
        for (i = 0; i < 800; i++) print number(), number(), 1 + i % 4, number(), number(), 1 + int(i / 4) % 4
        for (i = 0; i < 256; i++)
            print 10000 * (i % 2), 10000 * (int(i / 2) % 2), 1 + int(i / 16) % 4, 10000 * (int(i / 4) % 2), 10000 * (int(i / 8) % 2), 1 + int(i / 64)
        for (i = 0; i <= 10000; i++) {
            at[0] = at[1] = at[2] = at[3] = 5000
            at[i % 4] = i
            print at[0], at[1], 1 + int(i / 4) % 4, at[2], at[3], 1 + int(i / 16) % 4
        }
    }' >"$made/words"
while read -r words; do "$grow" $words; done <"$made/words" >"$made/out" 2>"$made/err"
by_rule <"$made/words" >"$made/should"
judge "grow, $(wc -l <"$made/words") pairs of labels" "$made/should" "$made/nothing"

# ---- Words outside the rules, each in the place of every coordinate and of every corner
for word in '' 07 007 0040 00 é ٣ +7 -1 -0 ' 7' '7 ' 1.0 1e3 0x1 a free 10001 65537 99999999 100000000 0000000001 4294967297 18446744073709551617; do
    refused_word 1 "$word" 2 1 3 4 1
    refused_word 2 1 "$word" 1 3 4 1
    refused_word 3 1 2 "$word" 3 4 1
    refused_word 4 1 2 1 "$word" 4 1
    refused_word 5 1 2 1 3 "$word" 1
    refused_word 6 1 2 1 3 4 "$word"
done
for corner in 0 5 6 9 10 10000; do
    refused_word 3 1 2 "$corner" 3 4 1
    refused_word 6 1 2 1 3 4 "$corner"
done
# The first of them is named.
refused_word 1 a b c d e f
refused_word 2 10000 b c d e f
refused_word 3 10000 0 5 d e f
refused_word 4 10000 0 4 10001 e f
refused_word 5 10000 0 4 0 e f
refused_word 6 10000 0 4 0 10000 f

# Each byte as a word: the ten digits are coordinates, and 1 to 4 are corners.
for byte in $(seq 1 255); do
    word=$(printf "\\$(printf %03o "$byte").")
    timeout 10 "$grow" "${word%.}" 0 1 0 0 1
    timeout 10 "$grow" 0 0 1 0 0 "${word%.}"
done >"$made/out" 2>"$made/err"
for byte in $(seq 1 255); do
    if [ "$byte" -ge 48 ] && [ "$byte" -le 57 ]; then
        echo $((2 * (byte - 48)))
    else
        printf 'refused\t3\n'
        echo 'grow: word 1: a coordinate outside the rule: it is a whole number from 0 to 10000, with no leading zero' >&2
    fi
    if [ "$byte" -ge 49 ] && [ "$byte" -le 52 ]; then
        echo 0
    else
        printf 'refused\t3\n'
        echo 'grow: word 6: a corner not 1 to 4' >&2
    fi
done >"$made/should" 2>"$made/explained"
judge 'grow, each byte as a word' "$made/should" "$made/explained"

# ---- Other than six words: the usage, and nothing on standard output
cat >"$made/explained" <<'END'
usage: grow X Y CORNER X Y CORNER
Tells how far two labels of a car park level grow: the greatest side, in half
units, at which the label at CORNER of the site X Y and the label at the second
CORNER of the second site do not meet; or the word never, where they meet at no
side. One place given twice gives 0. X and Y are whole units from 0 to 10000; a
corner is 1 right and up, 2 left and up, 3 left and down, 4 right and down. What
is outside the rules gives the word refused and the number 3, and standard error
says why. Nothing was written.
END
for words in '' '1' '1 2' '1 2 1' '1 2 1 3' '1 2 1 3 4' '1 2 1 3 4 1 1' '1 2 1 3 4 1 1 2' '1 2 1 3 4 1 1 2 1' '1 2 1 3 4 1 1 2 1 3' \
    '1 2 1 3 4 1 1 2 1 3 4' '1 2 1 3 4 1 1 2 1 3 4 1' "$(seq 262)" --help; do
    grown $words
    judge "grow, $(set -- $words; echo $#) words" "$made/nothing" "$made/explained"
done

# ---- It reads nothing
printf 'left' | { timeout 10 "$grow" 0 0 1 3 0 1; cat; } >"$made/out" 2>"$made/err"
printf '6\nleft' >"$made/should"
judge 'grow leaves standard input' "$made/should" "$made/nothing"

# ---- An output that cannot be written
echo 'grow: standard output cannot be written' >"$made/explained"
: >"$made/out"
for words in '0 0 1 3 0 1' '0 0 2 3 0 1' '0 0 0 3 0 1'; do
    timeout 10 "$grow" $words >&- 2>"$made/err"
    judge "grow $words, a closed output" "$made/nothing" "$made/explained"
    if [ -c /dev/full ]; then
        timeout 10 "$grow" $words >/dev/full 2>"$made/err"
        judge "grow $words, a full device as output" "$made/nothing" "$made/explained"
    fi
done
if [ -f "$made/edge.so" ]; then
    env LD_PRELOAD="$made/edge.so" WRITE_AT_MOST=1 timeout 10 "$grow" 0 0 1 10000 10000 1 >"$made/out" 2>"$made/err"
    echo 20000 >"$made/should"
    judge 'grow, one byte a write' "$made/should" "$made/nothing"
    env LD_PRELOAD="$made/edge.so" WRITE_AT_MOST=1 timeout 10 "$grow" 0 0 0 1 1 1 >"$made/out" 2>"$made/err"
    printf 'refused\t3\n' >"$made/should"
    echo 'grow: word 3: a corner not 1 to 4' >"$made/explained"
    judge 'grow, one byte a write, refused' "$made/should" "$made/explained"
fi
