# For tests/run and callers/run, which set `made` to a folder of their own: one line for each case, and how many passed and failed.
passed=0
failed=0

# verdict WHAT WRONG: a case, which passed when nothing is wrong
verdict() {
    if [ -z "$2" ]; then
        passed=$((passed + 1))
        printf 'ok\t%s\n' "$1"
    else
        failed=$((failed + 1))
        printf 'FAILED\t%s: %s\n' "$1" "$2"
    fi
}

# told FILE: how many bytes it has, and the first of them, a tab as ^I and a line feed as $
told() {
    printf '%s bytes "%s"' "$(wc -c <"$1")" "$(head -c 100 "$1" | cat -A | tr '\n' ' ')"
}

# difference NAME CAME SHOULD: nothing when the two files hold the same bytes
difference() {
    cmp -s "$2" "$3" || printf '%s: came %s, should %s, %s. ' "$1" "$(told "$2")" "$(told "$3")" "$(cmp "$2" "$3" 2>&1)"
}

# succeeds COMMAND..: a case that passes when the exit status of the command is 0
succeeds() {
    wrong=
    "$@" >"$made/log" 2>&1 || wrong="came status $?, should 0; it wrote: $(cat "$made/log")"
    verdict "$*" "$wrong"
    [ -z "$wrong" ]
}

# programs NAME..: these are proved and built, each as crates/NAME/out/NAME. `rt run` also runs what it built: here it says its usage.
programs() {
    for name in "$@"; do
        (cd "crates/$name" && rt run -- --help </dev/null) || return
    done
}

# finish: the last line, and an exit status that says the same
finish() {
    echo "$passed passed, $failed failed"
    [ "$failed" -eq 0 ]
    exit
}
