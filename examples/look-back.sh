#!/bin/sh
# Looks at earlier states of a survey, by the journal that edit.sh has kept of its edits (HIPSD_JOURNAL).
#
#     examples/look-back.sh JOURNAL                             the states that there were: number of edits, time, and the last edit
#     examples/look-back.sh JOURNAL EDITS PATH                  a file as it was after the first EDITS edits, to standard output
#     examples/look-back.sh JOURNAL EDITS --folder FOLDER       the survey as it was then, in a new folder, for hipsd serve or export
#     examples/look-back.sh JOURNAL --at TIME PATH              the same, for the last state at that time, in UTC: 2026-11-30T12:00,
#     examples/look-back.sh JOURNAL --at TIME --folder FOLDER   or 2026-11-30 for the beginning of that day
#
# It is run in the folder that the server was started over, with the description and the leaves that this had then, and wants no
# server. What was published then or not makes no difference. Of a journal that was replayed the states are those of the last replay.
# HIPSD_PROGRAM is the program, hipsd if it isn't set.
# The status is 0 where the file is written, or the states; 1 where there was no such state or no such file in it, or where the
# journal doesn't have all edits, or was kept over another folder; 2 where the words are wrong.
set -eu
export LC_ALL=C
program=${HIPSD_PROGRAM:-hipsd}

work=$(mktemp -d)
made=
trap 'rm -rf "$work" ${made:+"$made"}' EXIT
trap 'exit 1' HUP INT TERM

# refuse WORD ..: says what is wrong, before anything is read.
refuse() {
    echo "look-back.sh: $*" >&2
    exit 2
}

# fail WORD ..: says what went wrong.
fail() {
    echo "look-back.sh: $*" >&2
    exit 1
}

# whole NUMBER: whether this is a plain decimal of at most nine digits.
whole() {
    case $1 in
        0) ;;
        '' | 0* | *[!0-9]* | ??????????*) return 1 ;;
    esac
}

# path PATH: refuses what is no path of a survey's file, judged whole.
path() {
    case $1 in
        properties | Moc.fits | Norder3/Allsky.fits) return ;;
        *[!A-Za-z0-9/.]*) ;;
        *) echo "$1" | grep -qxE 'Norder[0-9]+/Dir[0-9]+/Npix[0-9]+[.]fits' && return ;;
    esac
    refuse "'$1' is no path of a survey's file"
}

# ---- the journal, which may come from anybody: what is no entry of edit.sh ends this

# file PATH: whether it is a file, and no link.
file() {
    [ -f "$1" ] && [ ! -L "$1" ]
}

# line NAME: the line of an entry, an edit, its path and its time, judged whole; with a body where one belongs to it.
line() {
    file "$journal/$1.edit" || fail "$journal/$1.edit is no file"
    line=$(head -c 200 "$journal/$1.edit")
    case $line in
        *[!A-Za-z0-9/.:\ -]*) line= ;;
    esac
    echo "$line" | grep -xE '((put|add|replace|remove) Norder[0-9]+/Dir[0-9]+/Npix[0-9]+[.]fits|(batch|publish) -)( [0-9]{4}(-[0-9]{2}){2}T([0-9]{2}:){2}[0-9]{2}Z)?' ||
        fail "$journal/$1.edit is no entry of a journal"
    case $line in
        remove' '* | publish' '*) ;;
        *) file "$journal/$1.body" || fail "$journal/$1.body is no file" ;;
    esac
}

# answered NAME: what an entry was answered last; nothing if it wasn't.
answered() {
    for answer in "$journal/$1.again" "$journal/$1.answer"; do
        if file "$answer"; then
            head -c 300 "$answer" | head -n 1 | tr -cd '[:print:]'
            return
        fi
    done
}

# ---- the edits that the server took

# own ANSWER: how many edits an accepted entry is. A batch is answered by their number, and a publication is none.
own() {
    case $1 in
        *' published '* | *' already '*) echo 0 ;;
        *' accepted '*) echo "${1##* }" ;;
        *) echo 1 ;;
    esac
}

# plan: the entries that the server took, in order: their names, the number of edits behind each, and what they are. An entry without
# an answer was taken where the next number counts more edits than are known; its own number is - then.
plan() {
    count=0 doubtful=
    while read -r name <&8; do
        line=$(line "$name") || exit
        answer=$(answered "$name")
        case $answer in
            '') [ "${line%% *}" = publish ] || doubtful="$doubtful $name" ;;
            2[0-9][0-9]' '*)
                number=$(echo "$answer" | cut -d ' ' -f 2)
                whole "$number" || fail "$journal/$name.answer has no number of edits: $answer"
                own=$(own "$answer")
                whole "$own" || fail "$journal/$name.answer has no number of edits: $answer"
                if [ $((number - own)) -gt "$count" ]; then
                    [ -n "$doubtful" ] || echo "look-back.sh: before $name others have edited, or entries are missing: states of $number edits and more can't be made" >&2
                    for entry in $doubtful; do echo "$entry - $(line "$entry")"; done
                elif [ $((number - own)) -lt "$count" ]; then
                    echo "look-back.sh: before $name the server started again, and the journal wasn't replayed: later states can't be made" >&2
                fi
                doubtful=
                echo "$name $number $line"
                count=$number
                ;;
        esac
    done 8<"$work/names"
    [ -z "$doubtful" ] || echo "look-back.sh: left out, since nobody knows whether the server took them:$doubtful" >&2
}

# states: the plan for a person: which numbers of edits there were, when, and what each came of.
states() {
    while read -r name number edit path time <&8; do
        case $edit in
            publish) echo "$number ${time:--} published" ;;
            *) echo "$number ${time:--} $edit ${path#-}" | sed 's/ $//' ;;
        esac
    done 8<"$work/plan"
}

# state_at TIME: the number of edits of the last state up to then.
state_at() {
    time=${1%Z}
    case $time in
        ????-??-??) time=${time}T00:00:00 ;;
        ????-??-??T??:??) time=$time:00 ;;
    esac
    case $time in *[!0-9T:-]*) time= ;; esac
    echo "$time" | grep -qxE '[0-9]{4}(-[0-9]{2}){2}T([0-9]{2}:){2}[0-9]{2}' || refuse "'$1' is no time as 2026-11-30T12:00"
    awk -v until="${time}Z" '
        $5 == "" { early = !timed; next }
        { timed = 1 }
        $5 <= until && $2 != "-" { last = $2; found = 1 }
        END { print found ? last : early ? "" : 0 }' "$work/plan"
}

# ---- what hipsd is asked

# record NAME EDIT PATH: an entry as a batch. An edit that was no batch is a batch of one.
record() {
    leaf=${3##*/Npix}
    leaf=${leaf%.fits}
    body=$journal/$1.body
    case $2 in
        batch) cat "$body" ;;
        remove) echo "remove $leaf" ;;
        *)
            echo "$2 $leaf $(wc -c <"$body")"
            cat "$body"
            ;;
    esac >"$work/batch"
    echo "batch $(wc -c <"$work/batch" | tr -d ' ')"
    cat "$work/batch"
}

# records EDITS PATHS: the batches up to that number of edits, and a read of each of the paths in that file. What each batch is to be
# answered goes to a file, with the entry's name.
records() {
    while read -r name number edit path time <&8; do
        [ "$edit" != publish ] || continue
        record "$name" "$edit" "$path"
        echo "$name $number" >>"$work/wanted"
        case $number in
            -) ;;
            *) [ "$number" -lt "$1" ] || break ;;
        esac
    done 8<"$work/plan"
    while read -r path <&8; do echo "read $1 $path"; done 8<"$2"
}

# compare: that each batch was answered by the number of edits that the server had answered. What it answered to an entry without
# an answer may have been a refusal too; the next number tells whether all fits.
compare() {
    while read -r name number <&8 && read -r said <&9; do
        case $number:$said in
            '-:edits '* | '-:refused '*) ;;
            *) [ "$said" = "edits $number" ] ||
                fail "$name: the server had $number edits behind it, and here it is '$said'. Edits have gone another way than by this journal, or this isn't the folder that the server was started over" ;;
        esac
    done 8<"$work/wanted" 9<"$work/output"
}

# past EDITS PATHS: asks hipsd for the files at these paths, in that state. The answers are in $work/output, from where fd 9 is.
past() {
    : >"$work/wanted"
    ended=0
    records "$1" "$2" | "$program" past 1 >"$work/output" 2>"$work/log" || ended=$?
    [ "$ended" = 0 ] || { head -c 1000 "$work/output" | tr -cd '[:print:]\n'; cat "$work/log"; } >&2
    [ "$ended" = 0 ] || fail "$program past 1 ends with status $ended"
    compare
    exec 9<"$work/output"
    while read -r name <&8; do read -r said <&9; done 8<"$work/wanted"
}

# next EDITS PATH: the next of these files, to standard output.
next() {
    read -r said <&9 || said=
    case $said in
        "file "*) head -c "${said#file }" <&9 ;;
        absent) fail "after $1 edits there was no $2" ;;
        "split "*) fail "there was no state of $1 edits: they were made in one batch with the next one" ;;
        "future "*) fail "the journal has fewer than $1 edits" ;;
        *) fail "$program past 1 answers '$said'" ;;
    esac
}

# leaves FILE: the paths of the leaves, by the coverage file of their survey (docs/FORMATS.md, 'The coverage file').
leaves() {
    head -c 5760 "$1" | tail -c 2880 | fold -w 80 >"$work/cards"
    rows=$(sed -n 's/^NAXIS2  = *\([0-9]*\) *$/\1/p' "$work/cards")
    order=$(sed -n 's/^MOCORDER= *\([0-9]*\) *$/\1/p' "$work/cards")
    tail -c +5761 "$1" | head -c $((rows * 8)) | od -An -v -t u8 -w8 --endian=big | awk -v order="$order" '
        {
            for (k = 0; $1 >= 16 * 4 ^ k; k++) { }
            span = 4 ^ (order - k)
            first = ($1 - 4 * 4 ^ k) * span
            for (leaf = first; leaf < first + span; leaf++)
                printf "Norder%d/Dir%d/Npix%d.fits\n", order, int(leaf / 10000) * 10000, leaf
        }'
}

# look_back EDITS PATH: one file.
look_back() {
    echo "$2" >"$work/paths"
    past "$1" "$work/paths"
    next "$1" "$2"
}

# survey EDITS FOLDER: the description and the leaves, in a new folder. hipsd takes 65,536 records at once.
survey() {
    { [ ! -e "$2" ] && [ ! -L "$2" ]; } || refuse "$2 is there already"
    look_back "$1" Moc.fits >"$work/moc"
    leaves "$work/moc" >"$work/leaves"
    split -l 20000 "$work/leaves" "$work/part."
    mkdir "$2.unfinished"
    made=$2.unfinished
    cp survey.conf "$made"
    for part in "$work"/part.*; do
        [ -s "$part" ] || continue
        past "$1" "$part"
        while read -r path <&7; do
            mkdir -p "$made/${path%/*}"
            next "$1" "$path" >"$made/$path"
        done 7<"$part"
    done
    mv -T "$made" "$2"
    made=
    echo "$(wc -l <"$work/leaves") leaf tiles after $1 edits; next: cd ${2#./} && hipsd serve 127.0.0.1:8089 1000 8"
}

usage() {
    sed -n 's/^#  *\(examples.*\)/    \1/p' "$0" >&2
    exit 2
}
[ $# -gt 0 ] || usage
[ -d "$1" ] || refuse "there is no folder $1"
case $1 in /*) journal=$1 ;; *) journal=./$1 ;; esac
shift
edits=${1:-} time=
if [ "$edits" = --at ]; then
    [ $# -gt 2 ] || usage
    time=$2
    shift
fi
path=${2:-} folder=
[ $# != 3 ] || [ "$path" != --folder ] || folder=$3
case $#-$path in
    0-) ;;
    2-) refuse "'' is no path of a survey's file" ;;
    2---folder) usage ;;
    2-*) path "$path" ;;
    3---folder) [ -n "$folder" ] || usage ;;
    *) usage ;;
esac
[ $# = 0 ] || [ -n "$time" ] || whole "$edits" || refuse "'$edits' is no number of edits"
[ $# = 0 ] || [ -f survey.conf ] || refuse "this folder has no survey.conf: it is run where the server was"
case $folder in '' | /*) ;; *) folder=./$folder ;; esac
find "$journal/" -maxdepth 1 -name '[0-9][0-9][0-9][0-9][0-9][0-9][0-9][0-9].edit' -printf '%f\n' | sed 's/[.]edit$//' | sort >"$work/names"
plan >"$work/plan"
if [ -n "$time" ]; then
    edits=$(state_at "$time") || exit
    [ -n "$edits" ] || fail "the journal's first entries have no time"
fi
if [ $# = 0 ]; then states; elif [ -n "$folder" ]; then survey "$edits" "$folder"; else look_back "$edits" "$path"; fi
