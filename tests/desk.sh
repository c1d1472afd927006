# For tests/run: the scripts of examples/, the level there, and tests/toolchain. What the program says on standard error is asked of the
# program itself, so that its sentences stand in tests/run alone.
desk=$PWD/$made/desk
script=$PWD/examples/file-a-sheet
mkdir -p "$desk/bin" "$desk/tools" "$desk/tmp" "$desk/disk"
# The scripts are called in other folders.
program=$(command -v "$place")
case $program in
/*) ;;
*) program=$PWD/$program ;;
esac
# A path that has neither `place` nor `rt`
for tool in awk cat cmp dirname mktemp mv readlink rm sed wc; do
    ln -s "$(command -v "$tool")" "$desk/tools/$tool"
done

# status CAME SHOULD: nothing when they are the same
status() {
    [ "$1" -eq "$2" ] || echo "came status $1, should $2. "
}

# ---- examples/level.list
run <examples/level.list >"$made/out"
corners=$(tail -n +2 "$made/out" | cut -f 4 | sort -u | tr '\n' ' ')
case "$(head -n 1 "$made/out"), corners $corners" in
side*[13579]', corners 1 2 3 4 ') wrong= ;;
*) wrong=$(told "$made/out") ;;
esac
verdict 'examples/level.list: an odd side and all four corners' "$wrong"

# ---- file-a-sheet
# fresh LIST: the folder `here` has the list as level.list, and an earlier level.sheet. What the script should leave there, write and
# complain of is `should`, `said` and `complained`: all as it was, and nothing.
fresh() {
    rm -rf "$desk/here" "$desk/should"
    mkdir "$desk/here"
    cp "$1" "$desk/here/level.list"
    echo 'an earlier sheet' >"$desk/here/level.sheet"
    cp -R "$desk/here" "$desk/should"
    : >"$desk/said"
    : >"$desk/complained"
}

# complains WHY: and that the earlier sheet is as it was, where there is one
complains() {
    echo "file-a-sheet: $1; no sheet was filed" >>"$desk/complained"
    [ ! -f "$desk/here/level.sheet" ] || echo 'file-a-sheet: level.sheet is an earlier sheet, as it was' >>"$desk/complained"
}

# files WHAT STATUS WORDS..: the script in `here` with these words, and with $with as the program. Where $last is set, only the last line
# of standard error counts: the words before it are those of the shell or of mktemp.
files() {
    what=$1 should=$2
    shift 2
    (cd "$desk/here" && PLACE=$with timeout 20 "$script" "$@") >"$made/out" 2>"$made/err"
    came=$?
    tail -n "${last:-+1}" "$made/err" >"$made/counts"
    verdict "file-a-sheet, $what" "$(
        status "$came" "$should"
        difference 'standard output' "$made/out" "$desk/said"
        difference 'standard error' "$made/counts" "$desk/complained"
        diff -r "$desk/here" "$desk/should"
    )"
}
with=$program
last=

# Cases that are meant to fail, with counts of their own: scripts that are wrong in one thing each, where status 1 and all as it was
# should come
meant=$(
    passed=0 failed=0
    while read -r wrong; do
        printf '#!/bin/sh\n%s\n' "$wrong" >"$desk/bin/meant"
        chmod +x "$desk/bin/meant"
        script=$desk/bin/meant
        fresh "$made/example.list"
        files "meant to fail: $wrong" 1 level.list
    done <<'END'
exit 0
echo said; exit 1
echo said >&2; exit 1
rm level.sheet; exit 1
echo more >left; exit 1
END
    finish
)
verdict 'file-a-sheet, five cases that are meant to fail' "$([ "${meant##*
}" = '0 passed, 5 failed' ] || echo "$meant")"

# A list that is accepted: document 01's example
# accepted NAME SHEET: it is called NAME, by which its sheet is SHEET
accepted() {
    fresh "$made/example.list"
    rm "$desk"/here/* "$desk"/should/*
    mkdir -p "$(dirname "$desk/here/$1")" "$(dirname "$desk/should/$1")"
    cp "$made/example.list" "$desk/here/$1"
    cp "$made/example.list" "$desk/should/$1"
    cp "$made/example.sheet" "$desk/should/$2"
    printf '%s: side 6, sites 3\n' "$2" >"$desk/said"
}
while IFS='|' read -r what name sheet; do
    accepted "$name" "$sheet"
    files "$what" 0 "$name"
done <<'END'
a list|level.list|level.sheet
a name that has another end|level.txt|level.txt.sheet
a name that is the end alone|.list|.sheet
a name with spaces|level 2  north.list|level 2  north.sheet
a name with a leading hyphen|-f.list|-f.sheet
a name with a backslash and a star|a\n*.list|a\n*.sheet
a list in another folder|plans/level 2/level.list|plans/level 2/level.sheet
END
for name in "$desk/here/level" ../here/level; do
    accepted level.list level.sheet
    echo "$name.sheet: side 6, sites 3" >"$desk/said"
    files "a list by its path, ${name##"$PWD/"}.list" 0 "$name.list"
done
fresh "$made/example.list"
chmod a-w "$desk/here/level.sheet"
cp "$made/example.sheet" "$desk/should/level.sheet"
echo 'level.sheet: side 6, sites 3' >"$desk/said"
files 'an earlier sheet is replaced, write-protected too' 0 level.list
# README has this line.
fresh examples/level.list
run <examples/level.list >"$desk/should/level.sheet"
echo 'level.sheet: side 285, sites 60' >"$desk/said"
files examples/level.list 0 level.list
accepted level.list level.sheet
mask=$(umask)
umask 027
files 'with umask 027' 0 level.list
umask "$mask"
mode=$(ls -l "$desk/here/level.sheet" | cut -c 1-10)
verdict 'file-a-sheet, the rights of the sheet are those of any file' "$([ "$mode" = -rw-r----- ] || echo "came $mode")"

# A list that is refused
# refusal NUMBER WHAT LIST
refusal() {
    fresh "$3"
    "$program" <"$3" >"$made/answer" 2>"$desk/complained"
    complains "level.list is refused, number $1"
    files "refused $1: $2" 1 level.list
}
while IFS='|' read -r number what list; do
    printf "$list" >"$made/list"
    refusal "$number" "$what" "$made/list"
done <<'END'
1|no line feed at the end|A\t1\t1\nB\t2\t2
1|semicolons|A;1;1\n
2|a heading row|Name\tx\ty\nA\t1\t1\n
3|carriage returns|A\t1\t1\r\nB\t2\t2\r\n
4|a name twice|A\t1\t1\nA\t2\t2\n
5|a place twice|A\t1\t1\nB\t1\t1\n
8|an empty list|
END
sites 241 >"$made/list"
refusal 7 '241 sites' "$made/list"
rm "$desk/here/level.sheet" "$desk/should/level.sheet"
"$program" <"$made/list" >"$made/answer" 2>"$desk/complained"
complains 'level.list is refused, number 7'
files 'refused 7, and there was no sheet' 1 level.list

# A sheet that is not whole, by programs that write $SHEET
# written NAME: the program on standard input
written() {
    cat >"$desk/bin/$1"
    chmod +x "$desk/bin/$1"
}
SHEET=$PWD/$made/example.sheet
PROGRAM=$program
MV=$(command -v mv)
EDGE=$PWD/$made/edge.so
export SHEET PROGRAM MV EDGE FAILS BYTES
written edge <<'END'
#!/bin/sh
# A path with a space or a colon in it cannot stand in LD_PRELOAD.
cd "${EDGE%/*}" && LD_PRELOAD=./edge.so WRITE_FAILS_AFTER=$FAILS exec "$PROGRAM"
END
written first-bytes <<'END'
#!/bin/sh
head -c "$BYTES" "$SHEET"
END
written killed <<'END'
#!/bin/sh
head -c "$BYTES" "$SHEET"
kill -KILL $$
END
written ends-its-caller <<'END'
#!/bin/sh
cat "$SHEET"
kill -TERM $PPID
END

if [ -e "$EDGE" ]; then
    with=$desk/bin/edge
    for FAILS in 0 1000 5289; do
        fresh tests/longest.list
        cp "$made/unwritten" "$desk/complained"
        complains 'the sheet of level.list is not whole'
        files "a write that fails after $FAILS of 5290 bytes" 1 level.list
    done
fi

with=$desk/bin/first-bytes
fresh "$made/example.list"
whole=$(($(wc -c <"$SHEET")))
for BYTES in $(seq 0 "$whole"); do
    (cd "$desk/here" && PLACE=$with "$script" level.list >"$desk/said" 2>"$desk/complained")
    echo "$BYTES status $?, the sheet has $(($(wc -c <"$desk/here/level.sheet"))) bytes"
done >"$made/out"
seq 0 "$whole" | awk -v whole="$whole" '
    { print $1 " status " ($1 < whole ? "1, the sheet has 17" : "0, the sheet has " whole) " bytes" }' >"$made/should"
verdict 'file-a-sheet, a sheet cut after each byte' "$(difference 'bytes and status' "$made/out" "$made/should")"

BYTES=1000
while IFS='|' read -r what sheet; do
    fresh "$made/example.list"
    printf "$sheet" >"$desk/sheet"
    SHEET=$desk/sheet
    complains 'the sheet of level.list is not whole'
    files "$what" 1 level.list
done <<'END'
another number|side\t6\nA\t10\t10\t3\nB\t10\t14\t1\nC\t10\t21\t1\n
two lines exchanged|side\t6\nB\t10\t14\t1\nA\t10\t10\t3\nC\t10\t20\t1\n
a line is missing|side\t6\nA\t10\t10\t3\nC\t10\t20\t1\n
a line twice|side\t6\nA\t10\t10\t3\nA\t10\t10\t3\nB\t10\t14\t1\nC\t10\t20\t1\n
a corner is missing|side\t6\nA\t10\t10\t3\nB\t10\t14\nC\t10\t20\t1\n
the side is missing|A\t10\t10\t3\nB\t10\t14\t1\nC\t10\t20\t1\n
another first word|size\t6\nA\t10\t10\t3\nB\t10\t14\t1\nC\t10\t20\t1\n
a first line without a size|side\nA\t10\t10\t3\nB\t10\t14\t1\nC\t10\t20\t1\n
another size|side\t06\nA\t10\t10\t3\nB\t10\t14\t1\nC\t10\t20\t1\n
another corner|side\t6\nA\t10\t10\t3\nB\t10\t14\t5\nC\t10\t20\t1\n
an empty corner|side\t6\nA\t10\t10\t3\nB\t10\t14\t\nC\t10\t20\t1\n
END
# A long sheet with another name in one line
BYTES=6000
for line in 2 60 120 180 241; do
    fresh tests/longest.list
    awk -v line="$line" 'NR == line { sub(/^./, "_") } { print }' tests/longest.sheet >"$desk/sheet"
    SHEET=$desk/sheet
    complains 'the sheet of level.list is not whole'
    files "another name in line $line of 241" 1 level.list
done
SHEET=$PWD/$made/example.sheet

# A program or a script that is ended, and no program
with=$desk/bin/killed
last=2
for BYTES in 20 "$whole"; do
    fresh "$made/example.list"
    complains 'the program ended with status 137'
    files "a program that is killed after $BYTES of $whole bytes" 1 level.list
done
last=
with=$desk/bin/ends-its-caller
fresh "$made/example.list"
complains 'a signal ended it'
files 'a signal' 1 level.list
# The same from the `mv` that puts the sheet in its place: then it is filed, and said to be.
mkdir "$desk/moving"
written ../moving/mv <<'END'
#!/bin/sh
"$MV" "$@"
kill -TERM $PPID
END
with=$program
accepted level.list level.sheet
path=$PATH
PATH=$desk/moving:$PATH
files 'a signal when the sheet is in its place' 0 level.list
# One that fails
written ../moving/mv <<'END'
#!/bin/sh
exit 1
END
fresh "$made/example.list"
complains 'level.sheet cannot be written'
files 'a sheet that cannot be put in its place' 1 level.list
PATH=$path
with=$desk/bin/nothing
fresh "$made/example.list"
complains "there is no program $with"
files 'no program' 1 level.list

# Which program it is: that of $PLACE puts in side 1, that of the path 2, that of the checkout 3.
mkdir -p "$desk/path" "$desk/checkout/examples" "$desk/checkout/crates/place/out"
for number in 1 2 3; do
    printf '#!/bin/sh\nsed "1s/6/%s/" "$SHEET"\n' "$number" | written "side-$number"
done
cp "$desk/bin/side-2" "$desk/path/place"
cp "$desk/bin/side-3" "$desk/checkout/crates/place/out/place"
cp "$script" "$desk/checkout/examples/file-a-sheet"
ln -s "$desk/checkout/examples/file-a-sheet" "$desk/bin/linked"
fresh "$made/example.list"
{
    PLACE=$desk/bin/side-1 PATH=$desk/path:$desk/tools "$desk/checkout/examples/file-a-sheet" "$desk/here/level.list"
    PLACE= PATH=$desk/path:$desk/tools "$desk/checkout/examples/file-a-sheet" "$desk/here/level.list"
    PLACE= PATH=$desk/tools "$desk/checkout/examples/file-a-sheet" "$desk/here/level.list"
    PLACE= PATH=$desk/tools "$desk/bin/linked" "$desk/here/level.list"
} >"$made/out" 2>&1
for number in 1 2 3 3; do
    echo "$desk/here/level.sheet: side $number, sites 3"
done >"$made/should"
verdict 'file-a-sheet, $PLACE, the path, the checkout, a link to it' "$(difference output "$made/out" "$made/should")"

# Where nothing can be written, or not here
with=$program
fresh "$made/example.list"
rm "$desk/here/level.sheet" "$desk/should/level.sheet"
mkdir "$desk/here/level.sheet" "$desk/should/level.sheet"
complains 'level.sheet is a folder'
files 'a folder where the sheet should be' 1 level.list
# Not even root can write there.
if [ -f /proc/version ]; then
    last=1
    fresh "$made/example.list"
    rm "$desk/here/level.sheet" "$desk/should/level.sheet"
    complains 'nothing can be written beside /proc/version'
    files 'a folder that cannot be written' 1 /proc/version
    last=
else
    echo 'There is no /proc/version: a folder that cannot be written is not tried.'
fi
# A disk of four pages, in a mount that nobody else sees: two hold the list, one the earlier sheet, and the sheet needs two.
written on-a-full-disk <<'END'
#!/bin/sh
mount -t tmpfs -o size=16k none . && cd "$PWD" || exit
cp "$LIST" level.list
echo 'an earlier sheet' >level.sheet
PLACE=$PROGRAM "$SCRIPT" level.list
echo "status $?"
ls -A
cat level.sheet
cmp level.list "$LIST"
END
mounts=
for words in -rm -m; do
    ! unshare "$words" mount -t tmpfs none "$desk/disk" 2>"$made/log" || mounts=$words
done
if [ -n "$mounts" ]; then
    (cd "$desk/disk" && LIST=$OLDPWD/tests/longest.list SCRIPT=$script unshare "$mounts" "$desk/bin/on-a-full-disk") \
        >"$made/out" 2>"$made/err"
    printf 'status 1\nlevel.list\nlevel.sheet\nan earlier sheet\n' >"$made/should"
    fresh tests/longest.list
    cp "$made/unwritten" "$desk/complained"
    complains 'the sheet of level.list is not whole'
    judge 'file-a-sheet, a full disk' "$made/should" "$desk/complained"
else
    echo 'Nothing can be mounted here: a full disk is not tried.'
fi

# misused WORDS..: the script with these words says how it is used
misused() {
    fresh "$made/example.list"
    echo 'usage: file-a-sheet LIST [above] [SIDE]    where LIST is a file that can be read, and SIDE a number of half units or free' \
        >"$desk/complained"
    files "bad usage: \"$*\"" 2 "$@"
}
for words in '' 'level.list level.list' 'level.list abc' 'level.list -4' 'level.list 4.5' 'level.list Free' 'level.list 4 5' \
    nothing.list 'nothing.list 4' . --help 'level.list Above' 'level.list abov' 'level.list aboveX' 'level.list above above' \
    'level.list 4 above' 'level.list above -4' 'level.list above Free' 'level.list above 4 5' 'level.list above 4 above' \
    'nothing.list above' 'above level.list' above 'above above' 'above 4'; do
    misused $words
done
misused level.list ''
misused level.list above ''
misused level.list '' above
misused level.list 'above '
misused level.list 'above 4'

# At a stock size
fresh "$made/example.list"
printf 'side\t4\nA\t10\t10\t1\nB\t10\t14\t1\nC\t10\t20\t1\n' >"$desk/should/level.sheet"
echo 'level.sheet: side 4 as given, sites 3' >"$desk/said"
files 'at side 4' 0 level.list 4
fresh "$made/alone.list"
printf 'side\tfree\nA\t5\t5\t1\n' >"$desk/should/level.sheet"
echo 'level.sheet: side free as given, sites 1' >"$desk/said"
files 'at side free' 0 level.list free
for side in 7 free 0 20001 04; do
    fresh "$made/example.list"
    "$program" "$side" <"$made/example.list" >"$made/answer" 2>"$desk/complained"
    complains "level.list is refused, number $(cut -f 2 "$made/answer")"
    files "refused at side $side" 1 level.list "$side"
done
written at-another-side <<'END'
#!/bin/sh
printf 'side\t6\n'
sed 's/$/\t1/'
END
with=$desk/bin/at-another-side
fresh "$made/example.list"
complains 'the sheet of level.list is not at side 4'
files 'a sheet at another side' 1 level.list 4
fresh "$made/example.list"
complains 'the sheet of level.list is not at side 4'
files 'a sheet above at another side' 1 level.list above 4
with=$program

# Above the spot: the same file, in place of an earlier sheet, and the line says so
fresh "$made/example.list"
printf 'side\t8\nA\t10\t10\t1\nB\t10\t14\t1\nC\t10\t20\t1\n' >"$desk/should/level.sheet"
echo 'level.sheet: side 8, labels above, sites 3' >"$desk/said"
files above 0 level.list above
# With four corners A is at 3 there.
fresh "$made/example.list"
printf 'side\t5\nA\t10\t10\t1\nB\t10\t14\t1\nC\t10\t20\t1\n' >"$desk/should/level.sheet"
echo 'level.sheet: side 5 as given, labels above, sites 3' >"$desk/said"
files 'above, at side 5' 0 level.list above 5
fresh "$made/row.list"
printf 'side\t7\nA\t0\t0\t2\nB\t3\t0\t1\nC\t10\t0\t1\n' >"$desk/should/level.sheet"
echo 'level.sheet: side 7 as given, labels above, sites 3' >"$desk/said"
files 'above, at side 7' 0 level.list above 7
fresh examples/pair.list
{ printf 'side\tfree\n'; printf '2\n1\n' | paste examples/pair.list -; } >"$desk/should/level.sheet"
echo 'level.sheet: side free as given, labels above, sites 2' >"$desk/said"
files 'above, at side free' 0 level.list above free
fresh examples/level.list
"$program" above <examples/level.list >"$desk/should/level.sheet"
echo 'level.sheet: side 180, labels above, sites 60' >"$desk/said"
files 'examples/level.list above' 0 level.list above
# A list of this name is a list, and its sheet is named as any other.
accepted above above.sheet
files 'a list named above' 0 above
accepted above above.sheet
printf 'side\t8\nA\t10\t10\t1\nB\t10\t14\t1\nC\t10\t20\t1\n' >"$desk/should/above.sheet"
echo 'above.sheet: side 8, labels above, sites 3' >"$desk/said"
files 'a list named above, above' 0 above above
# refusal_above LIST [SIDE]: it is refused as by the program
refusal_above() {
    fresh "$1"
    "$program" above ${2+"$2"} <"$1" >"$made/answer" 2>"$desk/complained"
    number=$(cut -f 2 "$made/answer")
    complains "level.list is refused, number $number"
    shift
    files "refused $number above${1+ at side $1}" 1 level.list above "$@"
}
for side in 9 free 0 20001 04; do refusal_above "$made/example.list" "$side"; done
# With four corners the unit square has a sheet at every side.
for side in 3 10 100 1000 20000 free; do refusal_above examples/square.list "$side"; done
refusal_above "$made/bad.list"
refusal_above "$made/bad.list" 4
refusal_above "$made/nothing"
# Programs that take no heed of the word: one that writes the sheet of four corners, and one that says its usage and writes nothing
with=$desk/bin/first-bytes
fresh "$made/example.list"
complains 'the sheet of level.list has a label below its spot'
files 'a sheet with a label below its spot' 1 level.list above
fresh "$made/example.list"
complains 'the sheet of level.list has a label below its spot'
files 'a sheet with a label below its spot, at side 6' 1 level.list above 6
for corners in '4 1 1' '1 3 1' '1 4 1' '1 1 3' '1 1 4' '2 2 4'; do
    printf '#!/bin/sh\nprintf "side\\t8\\nA\\t10\\t10\\t%s\\nB\\t10\\t14\\t%s\\nC\\t10\\t20\\t%s\\n"\n' $corners | written below
    with=$desk/bin/below
    fresh "$made/example.list"
    complains 'the sheet of level.list has a label below its spot'
    files "a sheet above with corners $corners" 1 level.list above
done
written says-its-usage <<'END'
#!/bin/sh
echo 'usage: place [SIDE] < LIST > SHEET' >&2
END
with=$desk/bin/says-its-usage
fresh "$made/example.list"
echo 'usage: place [SIDE] < LIST > SHEET' >"$desk/complained"
complains 'the sheet of level.list is not whole'
files 'a program that does not know above' 1 level.list above
with=$program

# ---- clean-list
# clean: it leaves nothing in the folder for temporary files
clean() {
    TMPDIR=$desk/tmp timeout 20 examples/clean-list "$@"
}

# What is saved, what comes of it, and the start of what `place` then answers. What came, cleaned again, comes out as it is.
while IFS='|' read -r what answer saved list; do
    printf "$saved" >"$desk/saved"
    printf "$list" >"$made/should"
    clean <"$desk/saved" >"$made/out" 2>"$made/err"
    came=$?
    clean <"$made/out" >"$made/again" 2>"$made/err"
    answered=$(run <"$made/out" 2>"$made/err" | head -n 1 | tr '\t' ' ')
    verdict "clean-list, $what" "$(
        status "$came" 0
        difference list "$made/out" "$made/should"
        difference 'cleaned twice' "$made/again" "$made/should"
        case $answered in "$answer"*) ;; *) echo "place answers $answered, should $answer" ;; esac
    )"
done <<'END'
a byte order mark|side|\357\273\277A\t1\t1\n|A\t1\t1\n
UTF-16, little end first|side|\377\376a\0\t\0001\0\t\0001\0\r\0\n\0|A\t1\t1\n
UTF-16, big end first|side|\376\377\0a\0\t\0001\0\t\0001\0\r\0\n|A\t1\t1\n
carriage return and line feed|side|A\t1\t1\r\nB\t2\t2\r\n|A\t1\t1\nB\t2\t2\n
carriage returns alone|side|A\t1\t1\rB\t2\t2\r|A\t1\t1\nB\t2\t2\n
spaces around fields|side| A \t 1\t1  \n|A\t1\t1\n
semicolons|side|A;1;2\n|A\t1\t2\n
semicolons and spaces|side| A ; 1 ; 2 \n|A\t1\t2\n
commas|side|A,1,2\n|A\t1\t2\n
commas and spaces|side|A, 1, 2\n|A\t1\t2\n
runs of spaces|side|  A 1    2\n|A\t1\t2\n
lines that are parted each in its way|side|A;1;1\nB,2,2\nC 3 3\nD\t4\t4\n|A\t1\t1\nB\t2\t2\nC\t3\t3\nD\t4\t4\n
quotation marks|side|"A"\t"1"\t"2"\n|A\t1\t2\n
quotation marks and semicolons|side|"A";"1";"2"\n|A\t1\t2\n
spaces and a mark within quotation marks|side|"\357\273\277 A "\t" 1"\t2\n|A\t1\t2\n
tabs at the end|side|A\t1\t1\t\t\n|A\t1\t1\n
semicolons at the end|side|A;1;1;;\n|A\t1\t1\n
lower-case letters|side|a-01b\t1\t1\n|A-01B\t1\t1\n
decimal parts of zeros|side|A\t12.0\t300.00\nB;0.0;0\n|A\t12\t300\nB\t0\t0\n
a heading row|side|Name\tx\ty\nA\t1\t1\n|A\t1\t1\n
a heading row in semicolons and quotation marks|side|"Bay";"x (cm)";"y (cm)"\r\nA;1;1\r\n|A\t1\t1\n
a heading row under an empty line|side|\n\nName\tx\ty\nA\t1\t1\n|A\t1\t1\n
empty lines|side|\nA\t1\t1\n\n\nB\t2\t2\n\n|A\t1\t1\nB\t2\t2\n
lines of empty fields|side|A\t1\t1\n\t\t\n  \n;;;\n,,\n"";""\nB\t2\t2\n|A\t1\t1\nB\t2\t2\n
no line feed at the end|side|A\t1\t1\nB\t2\t2|A\t1\t1\nB\t2\t2\n
all of it|side|\357\273\277"Name";"x";"y";\r\n\r\n"a-01"; 12.0;5.00;;\r\n"b-02";7;8|A-01\t12\t5\nB-02\t7\t8\n
nothing|refused 8||
a heading row alone|refused 8|Name\tx\ty\n|
a decimal part|refused 3|A\t12.5\t1\n|A\t12.5\t1\n
a decimal comma|refused 3|A;12,0;1\n|A\t12,0\t1\n
a comma in a line with tabs|refused 3|A\t1,234\t1\n|A\t1,234\t1\n
a comma in quotation marks|refused 1|A,"1,234",1\n|A\t"1\t234"\t1\n
a semicolon and spaces in a line with tabs|refused 2|A;1 1\t1\t1\n|A;1 1\t1\t1\n
x is blank|refused 3|A\t\t1\n|A\t\t1\n
y is blank|refused 3|A\t1\t\n|A\t1\t\n
y is blank, in semicolons|refused 3|A;1; ;\n|A\t1\t\n
x and y are blank|refused 3|A\t\t\t\n|A\t\t\n
the name is blank|refused 2|;1;1\n|\t1\t1\n
leading zeros|refused 3|A\t07\t1\n|A\t07\t1\n
leading zeros and a decimal part|refused 3|A\t07.0\t1\n|A\t07\t1\n
a sign|refused 3|A\t+7\t1\n|A\t+7\t1\n
a sign and a decimal part|refused 3|A\t-7.0\t1\n|A\t-7.0\t1\n
a point alone|refused 3|A\t7.\t1\n|A\t7.\t1\n
a space within a name|refused 2|A 1\t1\t1\n|A 1\t1\t1\n
a decimal part in a name|refused 2|1.0\t1\t1\n|1.0\t1\t1\n
a letter outside A to Z|refused 2|\303\244\t1\t1\n|\303\244\t1\t1\n
two fields|refused 1|A;1\n|A\t1\n
a fourth field|refused 1|A\t1\t1\tlift\n|A\t1\t1\tlift\n
a quotation mark on one side|refused 2|"A\t1\t1\n|"A\t1\t1\n
quotation marks twice|refused 2|""A""\t1\t1\n|""A""\t1\t1\n
two names that differ in case|refused 4|a\t1\t1\nA\t2\t2\n|A\t1\t1\nA\t2\t2\n
a heading row under a site|refused 3|A\t1\t1\nName\tx\ty\n|A\t1\t1\nNAME\tx\ty\n
a second heading row|refused 3|Name\tx\ty\nBay\tcm\tcm\nA\t1\t1\n|BAY\tcm\tcm\nA\t1\t1\n
two heading rows|refused 3|Name\tx\ty\nBay\tX\tY\nA\t1\t1\n|NAME\tx\ty\nBAY\tX\tY\nA\t1\t1\n
a site whose numbers are to come|refused 3|A-01\tx\ty\nB\t1\t1\n|A-01\tx\ty\nB\t1\t1\n
a word and a blank|refused 3|LIFT\tnorth\t\nB\t1\t1\n|LIFT\tnorth\t\nB\t1\t1\n
points that part thousands|refused 3|A;1.000;500\n|A\t1.000\t500\n
a row twice|refused 4|A\t1\t1\nA\t1\t1\n|A\t1\t1\nA\t1\t1\n
a name alone|refused 1|A\t1\t1\nLIFT\nB\t2\t2\n|A\t1\t1\nLIFT\nB\t2\t2\n
a remark|refused 2|A\t1\t1\n#\t2\t2\n|A\t1\t1\n#\t2\t2\n
a row of totals is a site|side|A\t1\t1\nTotal\t60\t60\n|A\t1\t1\nTOTAL\t60\t60\n
a space that parts thousands|refused 3|A\t1 234\t1\n|A\t1 234\t1\n
an apostrophe that parts thousands|refused 3|A\t1'234\t1\n|A\t1'234\t1\n
a power of ten|refused 3|A\t1e3\t1E3\n|A\t1e3\t1E3\n
zeros within a decimal part|refused 3|A\t12.05\t1\n|A\t12.05\t1\n
a name of nine bytes|refused 2|ABCDEFGHI;1;1\n|ABCDEFGHI\t1\t1\n
other bytes in names|refused 2|A_1;1;1\nA/1;2;2\n|A_1\t1\t1\nA/1\t2\t2\n
bars|refused 1|A\1741\1741\n|A\1741\1741\n
colons|refused 1|A:1:1\n|A:1:1\n
x, y, name|refused 3|10;20;A\n|10\t20\tA\n
a form feed|refused 1|A\t1\t1\fB\t2\t2\n|A\t1\t1\fB\t2\t2\n
a space that does not break|refused 3|A;1\302\240;1\n|A\t1\302\240\t1\n
a heading row with y before x|refused 3|Name;y;x\nA;1;1\n|NAME\ty\tx\nA\t1\t1\n
a heading row with the name last|refused 3|x;y;Name\n1;1;1\n|X\ty\tName\n1\t1\t1\n
a site whose numbers are words|refused 3|LIFT;TBD;TBD\nA;1;1\n|LIFT\tTBD\tTBD\nA\t1\t1\n
a zero byte|refused 2|a\0\t1\t1\r\n|a\0\t1\t1\r\n
UTF-16 of other letters|refused 2|\377\376\344\0\t\0001\0\t\0001\0\n\0|\377\376\344\0\t\0001\0\t\0001\0\n\0
UTF-16 whose zero bytes part no ASCII|refused 1|\377\376\0a\t\0001\0\n\0|\377\376\0a\t\0001\0\n\0
END

for list in examples/*.list tests/*.list; do
    clean <"$list" >"$made/out" 2>"$made/err"
    judge "clean-list, $list is by the rules" "$list" "$made/nothing"
done
clean <examples/saved.csv >"$made/out" 2>"$made/err"
printf 'A-01\t265\t1060\nA-02\t505\t1060\nA-03\t790\t1060\nB-01\t835\t2590\nB-02\t1075\t2590\n' >"$made/should"
printf 'clean-list: left out as a heading row: BAY\tx\ty\n' >"$made/told"
judge 'clean-list, examples/saved.csv; it says which row it left out' "$made/should" "$made/told"
{ printf 'side\t285\n'; printf '%s\n' 2 1 1 2 1 | paste "$made/should" -; } >"$desk/saved.sheet"
gives "the sheet of examples/saved.csv" "$made/should" "$desk/saved.sheet"
# Each byte within a name and within a number, in lines with tabs: only letters in names change.
for byte in $(seq 1 9) 11 12 $(seq 14 255); do
    byte=$(printf '\\%03o' "$byte")
    printf "A${byte}1\t1\t1\nB\t1${byte}1\t2\n"
done >"$desk/saved"
LC_ALL=C awk 'BEGIN { FS = OFS = "\t" } { $1 = toupper($1); print }' "$desk/saved" >"$made/should"
clean <"$desk/saved" >"$made/out" 2>"$made/err"
judge 'clean-list, each byte within a field' "$made/should" "$made/nothing"
for n in 241 500 1000; do
    sites "$n" >"$made/list"
    clean <"$made/list" >"$made/out" 2>"$made/err"
    judge "clean-list, $n sites" "$made/list" "$made/nothing"
done
# Names and numbers of every length up to 40 stay.
seq 1 40 | awk '{ name = name "N"; number = number "7"; printf "%s\t1\t1\nA\t%s\t1\nA\t1\t%s\n", name, number, number }' >"$made/list"
clean <"$made/list" >"$made/out" 2>"$made/err"
judge 'clean-list, each length of a field' "$made/list" "$made/nothing"

clean "$made/example.list" <"$made/example.list" >"$made/out" 2>"$made/err"
came=$?
echo 'usage: clean-list <SAVED >LIST' >"$made/should"
verdict 'clean-list, an argument' "$(
    status "$came" 2
    difference 'standard output' "$made/out" "$made/nothing"
    difference 'standard error' "$made/err" "$made/should"
)"
printf 'a\0\t1\t1\n' | clean >"$made/out" 2>"$made/err"
echo 'clean-list: this is no plain text, and it stays as it is' >"$made/should"
verdict 'clean-list says that it did nothing' "$(difference 'standard error' "$made/err" "$made/should")"
# What is said then is what `cat` says.
clean </ >"$made/out" 2>"$made/err"
verdict 'clean-list, a directory as input' "$(status $? 1)$(difference 'standard output' "$made/out" "$made/nothing")$(
    [ -s "$made/err" ] || echo 'it says nothing'
)"
if [ -c /dev/full ]; then
    clean <tests/longest.list >/dev/full 2>"$made/err"
    verdict 'clean-list, a full device as output' "$(status $? 1)"
fi
verdict 'clean-list leaves no temporary file' "$(ls -A "$desk/tmp")"

# ---- tests/toolchain, in the copy whose `rt` prints the file at-hand
# toolchain WHAT STATUS PATH LINES: so many lines of its standard error are those of $made/should
toolchain() {
    (cd / && COPY=$copy PATH=$3 "$copy/tests/toolchain") >"$made/out" 2>"$made/err"
    came=$?
    head -n "$4" "$made/err" >"$made/counts"
    verdict "tests/toolchain, $1" "$(
        status "$came" "$2"
        difference 'standard output' "$made/out" "$made/nothing"
        difference 'standard error' "$made/counts" "$made/should"
    )"
}
cp toolchain "$copy/at-hand"
: >"$made/should"
toolchain 'the one that is named' 0 "$copy/bin:$PATH" 9
echo 'another toolchain' >"$copy/at-hand"
printf 'The file toolchain names  %s\nbut `rt version` prints   another toolchain\n' "$(cat toolchain)" >"$made/should"
toolchain 'another' 1 "$copy/bin:$PATH" 9
sed 's/.$/?/' toolchain >"$copy/at-hand"
printf 'The file toolchain names  %s\nbut `rt version` prints   %s\n' "$(cat toolchain)" "$(cat "$copy/at-hand")" >"$made/should"
toolchain 'another in its last byte' 1 "$copy/bin:$PATH" 9
# What the shell says of a missing command is its own.
printf 'The file toolchain names  %s\n' "$(cat toolchain)" >"$made/should"
toolchain 'none' 1 "$desk/tools" 1
rm "$copy/at-hand"
printf 'The file toolchain names  %s\nbut `rt version` prints   nothing to go by: %s\n' "$(cat toolchain)" \
    "$(cat "$copy/at-hand" 2>&1)" >"$made/should"
toolchain 'one that fails' 1 "$copy/bin:$PATH" 9
