# shellcheck shell=sh
# Starts a program of this repository. The wrappers ./cdsreplay, ./cdsmend, ./cdshouse, ./cdsexplain and ./cdsclerk read this file; each knows the words of its program.
# They set `root`, the folder of the repository, and `name`, that of the program.
# shellcheck disable=SC2154

program=$root/crates/$name/out/$name
note=$root/out/built-$name

say() {
    printf '%s: %s\n' "$name" "$*" >&2
}

# Sets `second` to the present second since the machine was started, and which start that was; or to nothing. (It starts no process.)
this_second() {
    second='' up='' boot=''
    { read -r up _ </proc/uptime && read -r boot </proc/sys/kernel/random/boot_id; } 2>/dev/null || return 0
    second="$boot ${up%.*}"
}

# Whether the proved program is that of the sources: it was noted as that, and no code and no promise has changed since. To look at all of
# them takes longer than a short script does, so that is done once in a second. (Whoever may not note that it was done looks each time.)
is_proved() {
    [ -x "$program" ] && [ -f "$note" ] || return 1
    this_second
    looked=''
    [ -z "$second" ] || { read -r looked <"$root/out/looked-$name"; } 2>/dev/null
    [ -z "$second" ] || [ "$second" != "$looked" ] || return 0
    changed=$(find "$program" "$root/crates.txt" "$root/HANDLES" "$root"/crates/*/src "$root"/crates/*/specs \
        -cnewer "$note" 2>&1) && [ -z "$changed" ] || return 1
    { echo "$second" >"$root/out/looked-$name"; } 2>/dev/null
    return 0
}

# Whether a word is a number from 1 to a greatest one, of so many digits at most.
is_number() {
    case "$1" in
    '' | 0* | *[!0-9]*) return 1 ;;
    esac
    [ "${#1}" -le "$3" ] && [ "$1" -le "$2" ]
}

# Sets `began` to where standard input is in its file.
find_place_in_input() {
    while read -r key value; do
        [ "$key" != pos: ] || began=$value
    done <"/proc/$$/fdinfo/3"
}

# Prints the last line of what the program wrote, if that can be read again: from the file that it was written to, or by another run over
# a file of at most a million octets.
last_line() {
    if [ -f "/proc/$$/fd/4" ]; then
        tail -n 1 "/proc/$$/fd/4"
    elif [ -f "/proc/$$/fd/3" ] && [ "$began" = 0 ] && [ "$(wc -c <"/proc/$$/fd/3")" -le 1000000 ]; then
        "$program" "$@" <"/proc/$$/fd/3" | tail -n 1
    fi 2>/dev/null
}

# Says which line is faulty, and what explains it.
say_fault() {
    last=$(last_line "$@")
    file=FILE
    if [ -f "/proc/$$/fd/3" ]; then
        file=$(readlink "/proc/$$/fd/3")
        file=${file#"$PWD"/}
    fi
    helps="\`tools/why $file\` explains it"
    case "$1" in
    towers | untowers | migrate | audit) helps="docs/FORMATS.md has the form of its input" ;;
    esac
    case "$1:$last" in
    towers:*' fault '*) say "tower ${last%% *} is faulty: ${last#* fault }; $helps (status 3)" ;;
    audit:*' fault '*) say "image ${last%% *} is faulty: ${last#* fault }; $helps (status 3)" ;;
    *:*' fault '*) say "line ${last%% *} is faulty: ${last#* fault }; $helps (status 3)" ;;
    untowers:* | migrate:*) say "the input is faulty; $helps (status 3)" ;;
    *) say "the last answer says what is faulty; $helps (status 3)" ;;
    esac
}

# Says what a status of the program means.
say_status() {
    ended=$1
    shift
    case "$ended" in
    3) say_fault "$@" ;;
    4) say "reading failed (status 4)" ;;
    5) say "writing failed (status 5)" ;;
    6) say "out of memory (status 6)" ;;
    7) say "the journal of a house is full (status 7)" ;;
    *) [ "$ended" -le 128 ] || say "signal $((ended - 128)) ended the program (status $ended)" ;;
    esac
}

# Hands a signal on to the program. (It ignores an interrupt, as all that a shell runs beside itself does, so it gets another one.)
hand_on() {
    signal=$1
    kill -s TERM "$child" 2>/dev/null
}

# Runs the program with these words, says what its status means, and ends with it. A signal that the program gets from here ends both.
run_program() {
    signal='' began='' child=''
    exec 3<&0 4>&1
    [ ! -f "/proc/$$/fd/3" ] || find_place_in_input
    trap 'hand_on INT' INT
    trap 'hand_on TERM' TERM
    trap 'hand_on HUP' HUP
    "$program" "$@" <&3 3<&- 4>&- &
    child=$!
    [ -z "$signal" ] || hand_on "$signal"
    wait "$child" 2>/dev/null
    status=$?
    while kill -0 "$child" 2>/dev/null; do
        wait "$child" 2>/dev/null
        status=$?
    done
    if [ -n "$signal" ]; then
        trap - "$signal"
        kill -s "$signal" $$
    fi
    say_status "$status" "$@"
    exit "$status"
}

# Finds the program to run: the proved one if it is that of the sources. Else `tools/build` finds one: the proved program after all, or one
# that is not proved. It proves nothing.
find_program() {
    if [ ! -e "/proc/$$/fd/0" ] || [ ! -e "/proc/$$/fd/1" ]; then
        say "standard input or standard output is closed"
        exit 1
    fi
    if ! is_proved; then
        program=$("$root/tools/build" "$name" --find </dev/null) || exit 1
    fi
}

# Finds the program, runs it with these words, and says what its status means.
start() {
    find_program
    run_program "$@"
}
