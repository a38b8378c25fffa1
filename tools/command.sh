# Sourced by the commands daylist and mkday, which have set `name`, `here`, `usage`, what they `make`, what they tell of output that cannot
# be written (`unwritten`) and in whose words of the page they tell refusals (`way`), and made `help` and, where they let choose how lines
# come out (`known`), `filtered`: what their words ask for, where the input comes from, a run of the program, and the exit status. The four
# lines that say where things lie are others where it is installed.
version=$(cat "$here/VERSION")
refusals=$here/docs/refusals.txt
build() { "$here/tools/built" "$1"; }
program() { exec "$here/tools/run" "$1"; }

fail() {
    printf '%s: %s\n' "$name" "$*" >&2
    exit 2
}

misused() { fail "$*${*:+; }usage: $usage, or $name --help"; }

# tell TEXT: standard output gets the text, or it is told that it cannot.
tell() {
    printf '%s\n' "$1" 2>/dev/null || fail 'standard output cannot be written'
    exit 0
}

# Looks at the command's words; `file` and whether it was `given`, and which of the `known` choices are `chosen`, is what is left of them.
read_words() {
    given='' file=- over='' chosen=''
    for word; do
        case $over$word in
        --help | -h)
            text=$(help) || exit 2
            tell "$text"
            ;;
        --version) tell "$name (Flehwella) $version" ;;
        --) over=yes ;;
        -?*)
            case " ${known-} " in
            *" $word "*) chosen="$chosen $word " ;;
            *) misused "$word is not known" ;;
            esac
            ;;
        *)
            [ -z "$given" ] || misused "one file at a time, and $word is a second one"
            given=yes file=$word
            ;;
        esac
    done
}

# chose CHOICE: whether it is chosen.
chose() { case $chosen in *" $1 "*) ;; *) return 1 ;; esac; }

# Standard input is the file from here on; a file is opened once, since it may be a pipe.
open_input() {
    if [ -z "$given" ] && [ -t 0 ]; then misused; fi
    if [ "$file" = - ]; then return; fi
    [ -e "$file" ] || fail "there is no file $file"
    [ ! -d "$file" ] || fail "$file is a folder, not a file"
    [ -r "$file" ] || fail "$file may not be read"
    exec <"$file"
}

# Prints the refusals of the page, folded to 80 columns: number, what is wrong, and what to do.
help_refusals() {
    awk -F'|' -v way="$way" '
        function folded(first, indent, text,   words, count, i, line) {
            count = split(text, words, " ")
            line = first words[1]
            for (i = 2; i <= count; i++)
                if (length(line " " words[i]) <= 80) line = line " " words[i]
                else { print line; line = indent words[i] }
            print line
        }
        /^[0-9]/ && (way == "list" || $5 ~ /text/) { wrong[$1] = $3; remedy[$1] = $4 }
        /^text / && way == "text" { wrong[substr($1, 6)] = $2; remedy[substr($1, 6)] = $3 }
        END {
            for (i = 0; i < 256; i++) if (i in wrong) {
                folded(sprintf("  %2d  ", i), "      ", wrong[i])
                folded("        ", "          ", remedy[i])
            }
        }' "$refusals"
}

stopped() {
    trap '' HUP INT TERM
    kill $! 2>/dev/null
    fail "ended by a signal; $makes is not whole"
}

# Runs the program, with what it makes straight to standard output. `told` is what it says on standard error, and `ended` its status.
# Only `wait` lets a signal through at once, so the program runs beside the command; the file is gone before it starts.
run() {
    { true 3<&0; } 2>/dev/null || fail 'standard input is closed'
    { true 3>&1; } 2>/dev/null || fail 'standard output is closed'
    said=$(mktemp) || fail 'no temporary file can be made'
    exec 3<&0 4>"$said" 5<"$said"
    rm -f "$said"
    trap stopped HUP INT TERM
    if [ "$chosen" ]; then
        run_filtered
    else
        program "$name" <&3 2>&4 3<&- 4>&- 5<&- &
        ended=0
        wait $! 2>/dev/null || ended=$?
    fi
    trap - HUP INT TERM
    told=$(cat <&5)
    # A program whose output nobody reads ends as SIGPIPE ends one; where that signal is ignored, the output is one that cannot be written.
    if [ "$ended:$told" = 141: ] && sh -c 'kill -s PIPE $$'; then lost=yes ended=0; fi
    if [ "${lost-}" ]; then told=$unwritten; fi
}

# The same with its lines as was `chosen`: the program comes last, so that a signal ends it, and what reads its lines ends with it. Lines
# that are lost come before whatever the program told, as where it writes them itself.
run_filtered() {
    between=$(mktemp -d) || fail 'no temporary folder can be made'
    trap 'rm -rf "$between"' EXIT
    mkfifo "$between/lines" || exit 2
    filtered <"$between/lines" 2>/dev/null 3<&- 4>&- 5<&- &
    filter=$! ended=0 kept=0 lost=
    program "$name" <&3 2>&4 >"$between/lines" 3<&- 4>&- 5<&- &
    wait $! 2>/dev/null || ended=$?
    wait $filter 2>/dev/null || kept=$?
    case $kept in
    0) ;;
    1 | 2) lost=yes ended=0 ;;
    *) ended=$kept ;;
    esac
}

# explain NUMBER: what the page says of a refusal.
explain() {
    awk -F'|' -v way="$way" -v number="$1" -v name="$name" '
        $1 == number { wrong = $3; remedy = $4 }
        $1 == "text " number && way == "text" { wrong = $2; remedy = $3 }
        END { if (wrong) print name ": what is wrong: " wrong "\n" name ": what to do: " remedy }' "$refusals" >&2
}

# Passes on what the program told, says what it means, and exits: with 0 where nothing was told, 1 where something was refused, and
# else 2. A program whose output nobody reads any more ends as any does, without a word.
conclude() {
    [ -z "$told" ] || printf '%s\n' "$told" >&2
    case $ended:$told in
    0:) exit 0 ;;
    141:) exit 2 ;;
    0:*) ;;
    *) fail "the program ended with status $ended; $makes is not whole" ;;
    esac
    number=$(printf '%s\n' "$told" | sed -n -e "s/^$name: refused \([0-9]*\).*/\1/p" -e 's/^REFUSED \([0-9]*\).*/\1/p')
    [ "$number" ] || fail "$makes is not whole"
    explain "$number"
    printf '%s: %s is not whole\n' "$name" "$makes" >&2
    exit 1
}
