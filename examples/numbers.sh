# What the scripts of this folder share: numbers as people write them, job files, answers of `ask`, and how a script says what is wrong.
# A script reads it by `. "$(dirname "$0")/numbers.sh" || exit 2`. Nothing is printed before all that was given is found right.
LC_ALL=C
export LC_ALL
unset IFS
set -f
most=4294967295
newline='
'

# fail WORD ..: says in one line what is wrong, and ends the script.
fail() {
    printf '%s\n' "$(printf '%s' "${0##*/}: $*" | tr -c '[:print:]' '?')" >&2
    exit 1
}

# is_number WORD MOST: whether it is a decimal number up to MOST, without sign and without leading zeros.
is_number() {
    case $1 in
    '' | *[!0-9]* | 0?* | ???????????*) return 1 ;;
    esac
    [ "$1" -le "$2" ]
}

# numbers WHAT MOST WORD ..: fails at the first word that is no number up to MOST.
numbers() {
    what=$1
    limit=$2
    shift 2
    for word; do
        is_number "$word" "$limit" || fail "$what must be a plain number up to $limit: '$word'"
    done
}

# file NAME: fails where there is no such file.
file() {
    [ -f "$1" ] && [ -r "$1" ] || fail "no file that can be read: '$1'"
}

# input: fails where there is no standard input that can be read.
input() {
    (exec 3<&0) 2> /dev/null && [ ! -d /dev/stdin ] || fail "no standard input that can be read"
}

# bytes NUMBER ..: each as one byte, in the escapes of printf.
bytes() {
    for number; do printf '\\%03o' "$number"; done
}

# words NUMBER ..: the four bytes of each, big-endian, in the escapes of printf; of a negative number its two's complement.
words() {
    for number; do printf '\\%03o\\%03o\\%03o\\%03o' $((number >> 24 & 255)) $((number >> 16 & 255)) $((number >> 8 & 255)) $((number & 255)); done
}

# write_job VERSION WORD ..: prints a job file: the version byte, the length of the rest in bytes, then the words.
write_job() {
    version=$1
    shift
    printf "$(bytes "$version"; words $((4 * $#)) "$@")"
}

# read_job NAME: puts the version and the words of a job file into `version` and `job`; fails where it is not whole.
read_job() {
    file "$1"
    job=$(od -An -v -tu1 < "$1" | awk '
        # The number that the four bytes from this one on are.
        function word(i) { return ((byte[i] * 256 + byte[i + 1]) * 256 + byte[i + 2]) * 256 + byte[i + 3] }
        { for (i = 1; i <= NF; i++) byte[n++] = $i }
        END {
            if (n < 5 || n % 4 != 1 || word(1) != n - 5) exit
            printf "%d ", byte[0]
            for (i = 5; i < n; i += 4) printf "%.0f ", word(i)
        }')
    [ -n "$job" ] || fail "no job file, or a damaged one: '$1'"
    version=${job%% *}
    job=${job#* }
}

# read_answer MOST: takes from standard input what `ask` printed, a line `0 N` and a line of numbers up to MOST, and puts the first N into `answer`.
read_answer() {
    limit=$1
    input
    text=$(tr '\000' '?'; echo .)
    case $text in
    .) fail "the answer is empty" ;;
    *"$newline.") text=${text%"$newline."} ;;
    *) fail "the answer is cut short: its last line has no end" ;;
    esac
    first=${text%%"$newline"*}
    rest=${text#"$first"}
    set -- $first
    [ $# = 2 ] && [ "$1" = 0 ] && [ "$2" != 0 ] && is_number "$2" "$most" || fail "the answer must begin with 0 and a count: '$first'"
    length=$2
    case $rest in
    "$newline"*"$newline"*) fail "the answer has more than two lines" ;;
    esac
    set -- $rest
    [ $# -ge "$length" ] || fail "the answer is cut short: it says $length numbers, and has $#"
    numbers "each word of the answer" "$limit" "$@"
    answer=$(echo $rest | cut -d ' ' -f "-$length")
}
