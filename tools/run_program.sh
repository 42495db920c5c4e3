# Runs the program for bin/betable and for the betable of a package. They read this file after they have set 'program' to the path of the program and 'home' to
# the folder that has tools/ and VERSION.

# Large tables then lie in huge pages, if the system gives them to programs that ask. The heap grows by 64 MiB at a time, and keeps as much that is free, so the
# memory that a batch frees is there for the next one.
export GLIBC_TUNABLES="${GLIBC_TUNABLES-glibc.malloc.hugetlb=1:glibc.malloc.top_pad=67108864}"

# Prints the help of the program, and what betable adds to it. The status is that of the program: 1 if it cannot be written.
print_help() {
    written=0
    cat "$home/tools/program_help.txt" - 2>/dev/null <<'END' || written=$?

betable FILE is betable --script FILE, and - for FILE is standard input.
betable --version prints the version.
betable engine answers requests of other programs, such as the clients; docs/ENGINE.md describes them.
betable shell [PATH] is a prompt over a table in memory, or over the durable table of a file; docs/HOW_TO.md has an example.
betable serve PATH --port N serves the durable table of a file by HTTP; docs/SERVICE.md has its endpoints.
betable convert OLD NEW converts a durable table of an earlier version; docs/DURABLE.md says what it does.
END
    # A pipe whose reader has gone ends 'cat' by a signal.
    [ "$written" != 1 ] || echo "betable: write failed" >&2
    [ "$written" = 0 ] || return 1
}

# Runs the program on the words as it takes them: a word that names a file is that of --script, and '-' is standard input, which is read if no file is named.
# The status is that of the program, and 'errors' is what it wrote to standard error, if that was not written there.
run_program() {
    scripts=0 dashes=0 left=$#
    while [ "$left" -gt 0 ]; do
        word=$1 left=$((left - 1))
        shift
        case $word in
            --script | --workers | --cut | --grain)
                if [ "$left" = 0 ]; then
                    set -- "$@" "$word"
                    break
                fi
                if [ "$word" = --script ]; then
                    scripts=$((scripts + 1))
                fi
                if [ "$word $1" = "--script -" ]; then
                    dashes=1
                else
                    set -- "$@" "$word" "$1"
                fi
                left=$((left - 1))
                shift
                ;;
            - | --script=-) scripts=$((scripts + 1)) dashes=1 ;;
            --script=*) scripts=$((scripts + 1)) && set -- "$@" "$word" ;;
            -*) set -- "$@" "$word" ;;
            *)
                if [ -f "$word" ]; then
                    scripts=$((scripts + 1)) && set -- "$@" --script "$word"
                else
                    set -- "$@" "$word"
                fi
                ;;
        esac
    done
    # The program refuses a second script.
    if [ "$scripts$dashes" != 11 ] && [ "$dashes" = 1 ]; then
        set -- "$@" --script - --script -
    fi
    # A signal that ends this shell ends the program too.
    guard=
    if command -v setpriv >/dev/null; then
        guard="setpriv --pdeathsig TERM --"
    fi
    # The program reads as much from a folder as from a closed stream, and Python does not start with a folder as its input.
    if [ -d /dev/stdin ]; then
        exec <&-
    fi
    # At a terminal the program says, before it reads, that it does.
    errors=
    if { [ -t 0 ] && [ "$((scripts - dashes))" = 0 ]; } || ! { command exec 9>&1; } 2>/dev/null; then
        $guard "$program" "$@"
    else
        errors=$($guard "$program" "$@" 2>&1 >&9 9>&-)
    fi
}

# Runs the program, and says what it has no reason for: the word at fault, why a script cannot be read; and nothing of a write that failed since the reader of
# a pipe has gone. The exit status is that of the program.
run_and_explain() {
    run_program "$@"
    status=$?
    case $status in
        1 | 2) "$home/tools/explain_words" --after "$errors" "$@" ;;
        *)
            if [ -n "$errors" ]; then
                printf '%s\n' "$errors" >&2
            fi
            ;;
    esac
    exit "$status"
}
