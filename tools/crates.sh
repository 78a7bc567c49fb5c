# shellcheck shell=sh
# What ./refrun and tools/check share: the order of the crates, which of them are built, and how they are proved one by
# one while it is told how far that is. A script reads this file by `.`. It sets two variables before, root, the top of
# the repository, and teller, the word that its messages begin with; and it has a function `prove`, for `prove_all`.
root=${root:?} teller=${teller:?}

# How many seconds the proof of a crate takes from nothing on four cores, one crate with another: the fourteen crates of
# the program take about half an hour.
seconds_a_crate=130

# Asks the toolchain what it is. Where it can't be asked the answer is empty, and what is built counts as built by it.
ask_version() {
    version=$(rt version 2>/dev/null) || version=''
}

# Ends with this said, and status 1.
fail() {
    echo "$teller: $1" >&2
    exit 1
}

# Reads crates.txt: the crates in the order of its lines, and below each what it stands on.
# shellcheck disable=SC2016 # the words with $ are awk's
read_crates='
    { sub(/#.*/, "") }
    split($0, halves, ":") == 2 {
        split(halves[1], names, " ")
        order[++many] = names[1]
        below[names[1]] = halves[2]
    }
'

# The crates, in one line.
all_crates() {
    awk "$read_crates"'END { for (i = 1; i <= many; i++) printf "%s ", order[i] }' "$root/crates.txt"
}

# A line for each of these crates and each that they stand on, lowest first: the crate, and what it stands on itself.
# Libraries of the toolchain are left out.
ordered() {
    awk -v wanted="$*" "$read_crates"'
        function add(crate,    words, count, i, line) {
            if (!(crate in below) || (crate in added)) return
            added[crate] = 1
            line = crate
            count = split(below[crate], words, " ")
            for (i = 1; i <= count; i++) {
                add(words[i])
                if (words[i] in below) line = line " " words[i]
            }
            print line
        }
        END { count = split(wanted, words, " "); for (i = 1; i <= count; i++) add(words[i]) }' "$root/crates.txt"
}

# These crates and all that stand on them, in one line.
with_those_above() {
    awk -v wanted="$*" "$read_crates"'
        function stands(crate,    words, count, i) {
            count = split(below[crate], words, " ")
            for (i = 1; i <= count; i++) if (words[i] in found) return 1
            return 0
        }
        END {
            count = split(wanted, words, " ")
            for (i = 1; i <= count; i++) found[words[i]] = 1
            do {
                grew = 0
                for (crate in below) if (!(crate in found) && stands(crate)) grew = found[crate] = 1
            } while (grew)
            for (i = 1; i <= many; i++) if (order[i] in found) printf "%s ", order[i]
        }' "$root/crates.txt"
}

# Whether the first of these words is among the others.
is_among() {
    sought=$1
    shift
    case " $* " in *" $sought "*) ;; *) return 1 ;; esac
}

# What a crate stands on by its line in crates.txt, in one line.
line_of() {
    awk -v crate="$1" "$read_crates"'END { print below[crate] }' "$root/crates.txt"
}

# The sum of what a proof of the crate reads: of the crate and all that it stands on, each line in crates.txt, and the
# names and the text of its files.
sum_of() {
    (
        cd "$root" || exit
        # shellcheck disable=SC2046 # a list of words
        set -- $(ordered "$1" | cut -d ' ' -f 1)
        for it; do line_of "$it"; done
        # A crate may have no specs or no proofs.
        for it; do
            find "crates/$it/src" "crates/$it/specs" "crates/$it/proofs" -type f -print0 2>/dev/null || true
        done | sort -z | xargs -0 -r sha256sum
    ) | sha256sum | cut -d ' ' -f 1
}

# The sum of a file.
sum_of_file() {
    sha256sum <"$1" | cut -d ' ' -f 1
}

# What a crate was built from, in a line each: the toolchain, the sum of what its proof reads, and of a program what was
# built.
stamp_of() {
    echo "$version"
    sum_of "$1"
    [ ! -e "$root/crates/$1/src/main.rt" ] || sum_of_file "$root/crates/$1/out/$1"
}

# Whether the crate was built by this toolchain from what stands here now.
is_built() {
    stamp=$root/crates/$1/out/built
    [ -e "$stamp" ] || return 1
    [ ! -e "$root/crates/$1/src/main.rt" ] || [ -x "$root/crates/$1/out/$1" ] || return 1
    [ -z "$version" ] || [ "$version" = "$(head -n 1 "$stamp")" ] || return 1
    [ "$(stamp_of "$1" | tail -n +2)" = "$(tail -n +2 "$stamp")" ]
}

# Of crates as `ordered` lists them, on standard input, those that are not built and those above them, in one line.
unbuilt() {
    found=''
    while read -r crate below; do
        is_old=''
        for lower in $below; do ! is_among "$lower" "$found" || is_old=yes; done
        if [ -n "$is_old" ] || ! is_built "$crate"; then found="$found $crate"; fi
    done
    echo "$found"
}

# So many seconds, in words.
time_of() {
    if [ "$1" -lt 120 ]; then echo "$1 s"; else echo "$((($1 + 30) / 60)) min"; fi
}

# How long is left, from the second crate on: as long for each crate that is left as for each so far. Of the crate that
# is on, this many functions of so many are proved.
time_left() {
    [ "$number" -gt 1 ] || return 0
    if [ "$doing" = building ]; then set -- 1 1; fi
    parts=$(((number - 1) * 1000 + ${1:-0} * 1000 / ${2:-1}))
    left=$((elapsed * (count * 1000 - parts) / parts))
    [ "$left" -eq 0 ] || echo ", about $(time_of "$left") left"
}

# Says how far a step is: on one line that is written over on a terminal, and elsewhere once a minute.
say_how_far() {
    functions=$(sed -n 's/^checked .*, \([0-9]* of [0-9]*\)$/\1/p' "$log" | tail -n 1)
    elapsed=$(($(date +%s) - began))
    line="$teller: $doing $crate, crate $number of $count: ${functions:+$functions functions, }"
    line=$line$(time_of "$elapsed")$(time_left "${functions%% *}" "${functions##* }")
    # rt says so on its last line, and works on only once the other run is done with the crate.
    case $(tail -n 1 "$log") in
        *'waiting for another rt to finish in'*)
            line="$teller: $crate, crate $number of $count, waits for another run: $(time_of "$elapsed")" ;;
    esac
    if [ -t 2 ]; then
        [ ${#line} -lt 80 ] || line="${line%% functions*}${line#* functions}"
        printf '\r%-79.79s' "$line" >&2
    elif [ "$elapsed" -ge "$due" ]; then
        due=$((elapsed + 60))
        echo "$line" >&2
    fi
}

clear_line() {
    [ ! -t 2 ] || printf '\r%-79s\r' '' >&2
}

# Ends with this status. However rt ends, what it started ends too.
stop() {
    kill "$build" 2>/dev/null || true
    clear_line
    grep -E '^(error|fn .*: no)|FAILED|^[^ ]*:[0-9]+:[0-9]+: error' "$log" | head -n 5 >&2
    echo "$teller: $doing $crate $2; the log is $log" >&2
    exit "$1"
}

# Has rt do something with the crate: what that is called, and then rt's words.
step() {
    doing=$1 due=0
    shift
    { printf "" >"$log"; } 2>/dev/null || fail "can't write $log"
    (cd "$root/crates/$crate" && exec rt "$@") >"$log" 2>&1 </dev/null &
    build=$!
    trap 'stop 129 stopped' HUP; trap 'stop 130 stopped' INT; trap 'stop 143 stopped' TERM
    while kill -0 "$build" 2>/dev/null; do say_how_far; sleep 1; done
    wait "$build" || stop 1 failed
    trap - HUP INT TERM
    clear_line
}

# Proves these crates in this order. With each of them `prove` of the script that reads this file does the steps.
prove_all() {
    count=$# number=0 began=$(date +%s)
    [ "$count" -gt 0 ] || return 0
    command -v rt >/dev/null || fail 'no rt is on the path, to prove crates with'
    how_many="$count crates"
    [ "$count" -gt 1 ] || how_many='1 crate'
    minutes=$(((count * seconds_a_crate + 30) / 60))
    echo "$teller: proves $how_many, which takes about $minutes minutes on four cores from nothing" >&2
    for crate; do
        number=$((number + 1)) out=$root/crates/$crate/out
        log=$out/build.$$.log
        mkdir -p "$out" 2>/dev/null || fail "can't write in $root/crates/$crate"
        prove "$crate"
        rm -f "$log"
    done
}

# Proves the crate that is on and builds it, a library for the crates above it, and a program to be run. Runs at the
# same time have a log and a stamp of their own, and none stamps what has changed since it began.
prove_and_build() {
    before=$(sum_of "$crate")
    step proving check
    if [ -e "$root/crates/$crate/src/main.rt" ]; then step building run -- --version; else step building lib; fi
    [ "$(sum_of "$crate")" = "$before" ] || fail "$crate has changed while it was proved: begin again"
    { stamp_of "$crate" >"$out/built.$$" && mv "$out/built.$$" "$out/built"; } 2>/dev/null || fail "can't write in $out"
}
