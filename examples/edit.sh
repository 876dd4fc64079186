#!/bin/sh
# Edits a survey that hipsd serves, with curl: what an editor's own program does over HTTP.
#
#     examples/edit.sh put LEAF FILE        the leaf's tile becomes this FITS file
#     examples/edit.sh add LEAF FILE        the same, only where the leaf has no tile
#     examples/edit.sh replace LEAF FILE    the same, only where it has one
#     examples/edit.sh remove LEAF          the leaf's tile is taken away
#     examples/edit.sh batch < BODY         several edits at once, or none of them
#     examples/edit.sh publish              all edits so far are published, in one new generation
#     examples/edit.sh get PATH             a file of the newest generation, to standard output
#     examples/edit.sh read PATH ..         files of one generation, each at its path below the current folder
#     examples/edit.sh replay FOLDER ADDRESS [EDITS]   the edits and publications of a journal, in order, to a fresh server, or to
#                                           one that has accepted EDITS edits of others
#     examples/edit.sh rest FOLDER EDITS NEW [LATER]   a journal, in the new folder NEW, of the entries that a copy with EDITS edits lacks
#
# HIPSD is the server's address, http://127.0.0.1:8080 if it isn't set; curl takes a password from ~/.netrc. If hipsd listens at a Unix
# socket, HIPSD_SOCKET is its path, and HIPSD isn't asked.
# With a folder in HIPSD_JOURNAL each edit, batch and publication is written there and is on the disk before it is sent, and is marked
# once it is answered. So a server that ended can have its edits again, by `replay`, over the folder that it was started with. If the
# server has fewer edits than after the journal's last one, it has started again: then nothing is sent. Once others have sent as many,
# that can't be told: so after each restart replay first. A replay ends where an entry isn't answered, or is answered 429 or 503: what
# comes after it would be without it.
# `rest` is for a server over a copy of an earlier one (backup.sh), whose Survey-Prefix was EDITS: NEW is replayed to it, and is the journal
# from then on. Of the entries behind the last one that the copy has it takes all, with or without an answer. A journal that was replayed
# has the numbers of several servers. LATER is how many of its replays went to servers later than the copied one, and is wanted only if
# that makes a difference.
# If nobody listens, or the reply is 429 or 503, nothing was changed: the edit is sent again after 1, 2, 4, 8 and 16 seconds, six times in
# all, or HIPSD_TRIES times. An edit that may have been accepted is sent again by `replay` only.
# The status is 0 where the server did what was asked, and its reply is written as it came; 1 where not; 2 where the words are wrong,
# and then nothing was sent.
set -eu
export LC_ALL=C
base=${HIPSD:-http://127.0.0.1:8080}
base=${base%/}
socket=${HIPSD_SOCKET:-}
[ -z "$socket" ] || base=http://hipsd
journal=${HIPSD_JOURNAL:-}
tries=${HIPSD_TRIES:-6}
case $journal in '' | /*) ;; *) journal=./$journal ;; esac

work=$(mktemp -d)
made=
trap 'rm -rf "$work" ${made:+"$made"}' EXIT
trap 'exit 1' HUP INT TERM

# refuse WORD ..: says what is wrong, before anything is sent.
refuse() {
    echo "edit.sh: $*" >&2
    exit 2
}

# fail WORD ..: says what went wrong.
fail() {
    echo "edit.sh: $*" >&2
    exit 1
}

# whole NUMBER: whether this is a plain decimal of at most nine digits.
whole() {
    case $1 in
        0) ;;
        '' | 0* | *[!0-9]* | ??????????*) return 1 ;;
    esac
}

# wants COUNT WORD NAME ..: refuses a command that has fewer words than NAMEs, and says which are missing, or more.
wants() {
    count=$1 command=$2
    shift 2
    [ "$count" -le $# ] || refuse "$command takes $# words: $*"
    all=$*
    [ "$count" = 0 ] || shift "$count"
    [ $# = 0 ] || refuse "$command wants $all, and has no $*"
}

# quietly WORD ..: curl, in words that a person can read where it fails.
quietly() {
    curl -sS --globoff --proto '=http,https' --netrc-optional ${socket:+--unix-socket "$socket"} "$@"
}

# address ADDRESS: refuses what is no address, before it gets into curl's configuration.
address() {
    case $1 in '' | *[!!-~]* | *[\"\\]*) refuse "'$1' is no address of a server" ;; esac
}

# fetch WORD ..: curl, for what can be asked for again.
fetch() {
    quietly --fail --max-time 60 --retry $((tries - 1)) --retry-connrefused "$@"
}

# ---- what is sent

# hips_order of the survey: its leaves are of this order.
order_of_survey() {
    fetch -o "$work/properties" --url "$base/properties" || fail "there are no properties at $base"
    order=$(sed -n 's/^hips_order = \([0-9][0-9]*\)$/\1/p' "$work/properties")
    [ -n "$order" ] || fail "$base/properties has no hips_order"
    echo "$order"
}

# leaf_path NUMBER: the path of the leaf's tile.
leaf_path() {
    whole "$1" || refuse "'$1' is no number of a leaf"
    order=$(order_of_survey) || exit
    leaves=$((12 << 2 * order))
    [ "$1" -lt "$leaves" ] || refuse "$1 is no leaf: leaves are of order $order, 0 to $((leaves - 1))"
    echo "Norder$order/Dir$(($1 / 10000 * 10000))/Npix$1.fits"
}

# tile FILE: takes the file of a tile into $work/body, and refuses what can't be one.
tile() {
    [ -f "$1" ] || refuse "there is no file $1"
    [ -r "$1" ] || refuse "$1 can't be read"
    cp -- "$1" "$work/body"
    [ "$(head -c 10 "$work/body" | tr -d '\000')" = 'SIMPLE  = ' ] || refuse "$1 is no FITS file: it doesn't begin with 'SIMPLE  = '"
}

# send EDIT PATH BODY ADDRESS: makes one request; head and body of its reply are in $work/reply. The status is curl's.
send() {
    url=$4/$2
    case $1 in
        put) set -- -T "$3" ;;
        add) set -- -T "$3" -H 'If-None-Match: *' ;;
        replace) set -- -T "$3" -H 'If-Match: *' ;;
        remove) set -- -X DELETE ;;
        batch) url=$4/batch && set -- -X POST -H 'Content-Type:' --data-binary "@$3" ;;
        publish) url=$4/publish && set -- -X POST ;;
        *) fail "'$1' is no edit" ;;
    esac
    quietly -i -H 'Expect:' --max-time 600 -o "$work/reply" --url "$url" "$@"
}

# answer: the last reply's code, its number of edits or of the published prefix, and the first line of its body, in one line.
answer() {
    tr -d '\r' <"$work/reply" | awk '
        NR == 1 { code = $2 }
        tolower($1) ~ /^survey-(edits|prefix):$/ && !body { number = $2 }
        body == 1 { text = " " $0; body = 2 }
        /^$/ && !body { body = 1 }
        END { print code " " number text }'
}

# sends EDIT PATH BODY ADDRESS: the same, and again while nothing was changed. $reply is the answer, `unsent` if nobody listens or curl
# doesn't trust the server's certificate, and empty if none came.
sends() {
    try=1 pause=1
    while :; do
        ended=0
        send "$@" || ended=$?
        case $ended in
            0) reply=$(answer) ;;
            6 | 7) reply=unsent ;;
            60 | 77) reply=unsent && return ;;
            *) reply= ;;
        esac
        case $reply in unsent | '429 '* | '503 '*) ;; *) return 0 ;; esac
        [ "$try" -lt "$tries" ] || return 0
        echo "edit.sh: nothing was changed at $4 ($reply); trying again in $pause seconds" >&2
        sleep "$pause"
        try=$((try + 1)) pause=$((pause * 2))
    done
}

# count_edits ADDRESS: $count is how many edits the server has accepted. No leaf can be removed twice in one batch: so this one is
# refused in any state, changes nothing, and is answered with their number.
count_edits() {
    printf 'remove 0\nremove 0\n' >"$work/twice"
    sends batch - "$work/twice" "$1"
    count=$(echo "$reply" | cut -d ' ' -f 2)
    whole "$count" || fail "nothing was sent, since $1 doesn't say how many edits it has accepted: ${reply:-no answer}"
}

# accepted ANSWER: whether the server did what was asked.
accepted() {
    case $1 in 2[0-9][0-9]' '*) ;; *) return 1 ;; esac
}

# known ANSWER: whether hipsd itself has answered. 502 and 504 are a proxy's words for that it hasn't.
known() {
    case $1 in '' | ' '* | 502' '* | 504' '*) return 1 ;; esac
}

# ---- a refusal in words

# card FILE NUMBER: a card of a header.
card() {
    whole "$2" || return 0
    dd if="$1" bs=80 skip=$(($2 - 1)) count=1 2>/dev/null | tr -cd '[:print:]' | sed 's/ *$//'
}

# fault FILE WORD ..: why the file of a tile is refused (docs/FORMATS.md, 'Tile files'). Of a batch there is no FILE.
fault() {
    file=$1
    shift
    case $* in
        '1 header 1') echo "it ends within its header" ;;
        '1 header 2 '*) echo "byte $4 of its header, from 0, is no printable ASCII" ;;
        '1 header 3') echo "its header has no END card" ;;
        '1 header '[45]' '*)
            text=$(card "${file:-/dev/null}" "$4")
            if [ "$3" = 5 ]; then echo "card $4 has the keyword of an earlier card${text:+: $text}"; else
                echo "card $4 has no value of its kind${text:+: $text}"
                case $text in BLANK*) echo "(it must be a whole number: hipsctl import mends what HipsGen wrote)" ;; esac
            fi
            ;;
        '2 simple') echo "its first card isn't SIMPLE = T" ;;
        '3 bitpix -'*) echo "its pixels are real numbers (BITPIX $3): HipsGen makes whole ones by hips_pixel_bitpix=16 or 32" ;;
        '3 bitpix '*) echo "BITPIX is $3, which isn't the survey's" ;;
        '4 naxis '*) echo "NAXIS is $3 in place of 2" ;;
        '5 width '*) echo "NAXIS$3 is $4, which isn't the survey's hips_tile_width" ;;
        '6 scale') echo "BSCALE isn't the survey's" ;;
        '7 zero') echo "BZERO isn't the survey's" ;;
        '8 blank '*) echo "BLANK is $3, which isn't the survey's" ;;
        '9 truncated '*) echo "$3 bytes of its pixels are missing" ;;
        '10 trailing '*) echo "$3 bytes follow its pixels: further parts of a FITS file aren't taken" ;;
        *) echo "$*" ;;
    esac
}

# explain EDIT BODY ANSWER: what a refusal means, and what helps.
explain() {
    edit=$1 body=$2 answer=$3
    number=${answer#* batch }
    number=${number#refused }
    number=${number%% *}
    # shellcheck disable=SC2086 # the words of a fault
    case $answer in
        *' limit 3') echo "65,536 edits were accepted, and the server takes no more: renew it (rollover.sh)" ;;
        *' limit 4')
            echo "the tiles at the start and all accepted since fill the memory that a server has for them"
            echo "renew it (rollover.sh): the next one starts with the present tiles alone"
            ;;
        '401 '*) echo "a name and a password are needed in ~/.netrc, or those there are wrong" ;;
        '404 '*' absent') echo "the leaf has no tile" ;;
        '412 '*' batch '*)
            echo "entry $number of the batch, from 0, adds a leaf that has a tile, or replaces or removes one that has none: nothing was changed"
            ;;
        '412 '*) if [ "$edit" = add ]; then echo "the leaf has a tile already"; else echo "the leaf has no tile"; fi ;;
        '413 '*) echo "it is too large: a batch has at most 1,024 entries, and four times the bytes of the largest tile" ;;
        '422 '*' many') echo "a batch has at most 1,024 entries" ;;
        '422 '*' line')
            echo "entry $number, from 0, is no line 'put LEAF LENGTH', 'add LEAF LENGTH', 'replace LEAF LENGTH' or 'remove LEAF'"
            ;;
        '422 '*' short') echo "the file of entry $number, from 0, has fewer bytes than its LENGTH" ;;
        '422 '*' batch refused '*)
            echo "the file of entry $number, from 0, is no tile of this survey: $(fault '' ${answer#* batch refused "$number" })"
            ;;
        '422 '*' tile refused '*) echo "the file is no tile of this survey: $(fault "$body" ${answer#* tile refused })" ;;
        '429 '* | '503 '*) echo "nothing was changed, since the server is busy or paused: try again later" ;;
    esac | sed 's/^/edit.sh: /' >&2
}

# ---- the journal: NUMBER.edit is one line, the edit, its path and when it was sent; NUMBER.body its body; NUMBER.answer what it was
# answered; and NUMBER.again what it was answered by the servers to which the journal was replayed, a line each, the last one first. In
# the rest of a journal the answers of earlier servers have - in place of their numbers.

# names FOLDER: the names of a journal's entries, in order.
names() {
    find "$1/" -maxdepth 1 -name '[0-9][0-9][0-9][0-9][0-9][0-9][0-9][0-9].edit' -printf '%f\n' | sed 's/[.]edit$//' | sort
}

# file PATH: whether it is a file, and no link: a journal may come from anybody.
file() {
    [ -f "$1" ] && [ ! -L "$1" ]
}

# entry FOLDER NAME: $edit and $path of an entry, which is judged whole before anything of it is used.
entry() {
    file "$1/$2.edit" || fail "$1/$2.edit is no file"
    line=$(head -c 200 "$1/$2.edit")
    case $line in
        *[!A-Za-z0-9/.:\ -]*) line= ;;
    esac
    echo "$line" | grep -qxE '((put|add|replace|remove) Norder[0-9]+/Dir[0-9]+/Npix[0-9]+[.]fits|(batch|publish) -)( [0-9]{4}(-[0-9]{2}){2}T([0-9]{2}:){2}[0-9]{2}Z)?' ||
        fail "$1/$2.edit is no entry of a journal"
    edit=${line%% *}
    path=${line#* }
    path=${path%% *}
    case $edit in
        remove | publish) ;;
        *) file "$1/$2.body" || fail "$1/$2.body is no file" ;;
    esac
}

# answered FOLDER NAME: what an entry was answered last; nothing if it wasn't.
answered() {
    for answer in "$1/$2.again" "$1/$2.answer"; do
        if file "$answer"; then
            head -c 300 "$answer" | head -n 1 | tr -cd '[:print:]'
            return
        fi
    done
}

# same_history: ends this if the server has fewer edits than after the journal's last entry, $behind.
same_history() {
    behind=0
    names "$journal" | sort -r >"$work/names"
    while read -r name <&8; do
        last=$(answered "$journal" "$name")
        accepted "$last" || continue
        behind=$(echo "$last" | cut -d ' ' -f 2)
        [ "$behind" != - ] || fail "nothing was sent: $journal is the rest of a journal, and has to be replayed first"
        whole "$behind" || fail "$journal/$name.answer has no number of edits: $last"
        break
    done 8<"$work/names"
    [ "$behind" -gt 0 ] || return 0
    count_edits "$base"
    [ "$count" -lt "$behind" ] || return 0
    fail "nothing was sent: $base has $count edits, and had $behind after the last one of $journal. So it has started again, from its folder.
    If the folder has these edits (rollover.sh renewed the server): start a new journal, another folder in HIPSD_JOURNAL.
    If it has some of them (it is a copy): 'edit.sh rest', by docs/OPERATING.md, 'After a loss'.
    If not: 'edit.sh replay $journal $base' sends them again, in order."
}

# locked FOLDER: one at a time, so that the journal has the edits in the order in which the server has accepted them.
locked() {
    [ -w "$1" ] || fail "nothing was sent: $1 can't be written"
    (set -C && : >"$1/lock") 2>/dev/null || file "$1/lock" || fail "$1/lock is no file"
    exec 9>>"$1/lock"
    flock 9
}

# keep FILE: what is read becomes this file of the journal, on the disk. Nothing is written through a link.
keep() {
    rm -f "$1.new"
    (set -C && cat >"$1.new")
    sync "$1.new"
    mv -T "$1.new" "$1"
}

# record EDIT PATH BODY: writes an entry, hands it to the disk, and says its name.
record() {
    last=$(names "$journal" | tail -n 1 | sed 's/^0*//')
    entry=$journal/$(printf '%08d' $((${last:-0} + 1)))
    [ -z "$3" ] || keep "$entry.body" <"$3"
    echo "$1 $2 $(date -u +%Y-%m-%dT%H:%M:%SZ)" | keep "$entry.edit"
    sync "$journal"
    echo "$entry"
}

# mark FILE ANSWER: what an entry was answered.
mark() {
    printf '%s\n' "$2" | keep "$1"
    sync "$journal"
}

# edit EDIT PATH BODY: sends it, by way of the journal where there is one.
edit() {
    entry=
    if [ -n "$journal" ]; then
        umask 077
        if [ ! -d "$journal" ]; then
            mkdir -p "$journal"
            sync "$(dirname "$journal")"
        fi
        locked "$journal"
        same_history
        entry=$(record "$@")
    fi
    sends "$@" "$base"
    known "$reply" || fail "not answered, so it isn't known whether it was accepted${entry:+; it stands in $entry.edit}"
    [ -z "$entry" ] || mark "$entry.answer" "$reply"
    case $reply$ended in
        unsent60 | unsent77) fail "not sent, since curl doesn't trust the certificate of $base; CURL_CA_BUNDLE names a file of those to trust" ;;
        unsent*) fail "not sent, since nothing listens at $base" ;;
    esac
    cat "$work/reply"
    accepted "$reply" && return
    explain "$1" "$3" "$reply"
    return 1
}

# ---- the journal, sent again

# journal_of FOLDER: $journal is that one, nobody else's meanwhile, with its entries' names in $work/names; all are judged.
journal_of() {
    [ -d "$1" ] || refuse "there is no folder $1"
    case $1 in /*) journal=$1 ;; *) journal=./$1 ;; esac
    umask 077
    locked "$journal"
    names "$journal" >"$work/names"
    while read -r name <&8; do entry "$journal" "$name"; done 8<"$work/names"
}

# again NAME ADDRESS: sends an entry that was accepted, or never answered, and compares its answer with the one that it had last. Says
# nothing where they are the same; where edits of others stand before it, or it had - for its number, the number may be another one.
again() {
    entry "$journal" "$1"
    first=
    ! file "$journal/$1.answer" || first=$(head -c 300 "$journal/$1.answer")
    [ -z "$first" ] || accepted "$first" || return 0
    was=$(answered "$journal" "$1")
    sends "$edit" "$path" "$journal/$1.body" "$2"
    case $reply in unsent | '429 '* | '503 '*) false ;; *) known "$reply" ;; esac ||
        fail "$1, $edit $path: ${reply:-not answered}. The replay ends here: start the server again over its folder, and replay all journals from the first on"
    sent=$((sent + 1))
    echo "$1 $reply" >>"$work/again"
    case $others:$was in
        0:[0-9][0-9][0-9]' '[!-]*) [ "$was" != "$reply" ] || return 0 ;;
        *) [ "${was%% *}" != "${reply%% *}" ] || return 0 ;;
    esac
    echo "$1, $edit $path: was ${was:-never answered}, is $reply"
    differing=$((differing + 1))
}

# replay FOLDER ADDRESS [EDITS]: nothing is sent before all entries were judged.
replay() {
    address "$2"
    others=${3:-0}
    whole "$others" || refuse "'$others' is no number of edits"
    journal_of "$1"
    count_edits "${2%/}"
    [ "$count" = "$others" ] || fail "nothing was sent: the server at $2 is no fresh one: it has accepted $count edits.
    If they are those of this journal, nothing is missing. If they are others, there are two ways:
    - start it again over its folder, which loses them, and replay then;
    - 'edit.sh replay $1 $2 $count' sends the journal's edits after them; if both change a leaf, the journal's tile stays."
    sent=0 differing=0
    : >"$work/again"
    while read -r name <&8; do again "$name" "${2%/}"; done 8<"$work/names"
    while read -r name reply <&8; do
        {
            printf '%s\n' "$reply"
            ! file "$journal/$name.again" || cat "$journal/$name.again"
        } | keep "$journal/$name.again"
    done 8<"$work/again"
    sync "$journal"
    echo "$(wc -l <"$work/names") entries: $sent sent again, the others weren't accepted; $differing answered otherwise than before"
    [ "$differing" = 0 ]
}

# ---- the rest of a journal, behind a copy

# numbers NAME: an entry's name and its numbers, by the last server first; - where it wasn't accepted, or by a server before the journal.
numbers() {
    {
        ! file "$journal/$1.again" || head -c 9000 "$journal/$1.again"
        if file "$journal/$1.answer"; then head -c 300 "$journal/$1.answer" | head -n 1; else echo; fi
    } | awk -v name="$1" '{ all = all " " ($1 ~ /^2[0-9][0-9]$/ && $2 ~ /^[0-9]+$/ ? $2 : "-") } END { print name all }'
}

# behind_copy EDITS LATER: the names of the entries behind the last one that the copy has.
behind_copy() {
    awk -v edits="$1" -v column=$(($2 + 2)) '
        { names[NR] = $1 }
        $column ~ /^[0-9]+$/ && $column <= edits + 0 { last = NR }
        END { for (i = last + 1; i <= NR; i++) print names[i] }' "$work/numbers"
}

# one_answer FOLDER EDITS NEW: ends this if it makes a difference which of the journal's servers was copied.
one_answer() {
    replays=$(awk 'NF > most { most = NF } END { print most < 2 ? 0 : most - 2 }' "$work/numbers")
    for later in $(seq "$replays"); do
        behind_copy "$2" "$later" | cmp -s - "$work/rest" && continue
        again=$(find "$journal/" -maxdepth 1 -name '*.again' -print -quit)
        fail "no journal was made: $1 was replayed, last at $(date -u -r "$again" +%Y-%m-%dT%H:%M:%SZ), and has the numbers of several servers.
    If the copy is of the server to which it was replayed last: 'edit.sh rest $1 $2 $3 0'.
    If it is of the server before that one: 'edit.sh rest $1 $2 $3 1', and so on."
    done
}

# rest FOLDER EDITS NEW [LATER]: NEW is there whole, or not at all.
rest() {
    case $3 in /*) new=${3%/} ;; *) new=./${3%/} ;; esac
    whole "$2" || refuse "'$2' is no number of edits"
    whole "${4:-0}" || refuse "'$4' is no number of replays"
    { [ ! -e "$new" ] && [ ! -L "$new" ]; } || refuse "$3 is there already"
    journal_of "$1"
    while read -r name <&8; do numbers "$name"; done 8<"$work/names" >"$work/numbers"
    behind_copy "$2" "${4:-0}" >"$work/rest"
    [ -n "${4:-}" ] || one_answer "$@"
    mkdir "$new.unfinished"
    made=$new.unfinished
    while read -r name <&8; do
        cp "$journal/$name.edit" "$made/"
        ! file "$journal/$name.body" || cp "$journal/$name.body" "$made/"
        ! file "$journal/$name.answer" || head -c 300 "$journal/$name.answer" | head -n 1 | sed 's/^\([0-9]* \)[^ ]*/\1-/' >"$made/$name.answer"
    done 8<"$work/rest"
    sync -f "$made"
    mv -T "$made" "$new"
    made=
    sync "$(dirname "$new")"
    all=$(wc -l <"$work/names") kept=$(wc -l <"$work/rest")
    echo "$3 has the last $kept of $all entries. Next: edit.sh replay $3 ADDRESS, and HIPSD_JOURNAL=$3"
    [ "$kept" -lt "$all" ] || return 0
    echo "The copy has those up to: $(cut -c 1-100 "$journal/$(sed -n "$((all - kept))p" "$work/names").edit"). If the copy is older than that, $2 counts the edits of another server"
}

# ---- what is read

# path PATH: refuses what is no path of a survey's file, judged whole.
path() {
    case $1 in
        properties | Moc.fits | Norder3/Allsky.fits) return ;;
        *[!A-Za-z0-9/.]*) ;;
        *) echo "$1" | grep -qxE 'Norder[0-9]+/Dir[0-9]+/Npix[0-9]+[.]fits' && return ;;
    esac
    refuse "'$1' is no path of a survey's file"
}

# said NAME VALUE: a line of curl's configuration.
said() {
    printf '%s = "%s"\n' "$1" "$(printf '%s' "$2" | sed 's/[\\"]/\\&/g')"
}

# group NAME: the words by which curl makes one request of a row; what it was answered goes to the file NAME.
group() {
    printf 'silent\nshow-error\nfail\ngloboff\nnetrc-optional\ncreate-dirs\nmax-time = 60\n'
    said proto '=http,https'
    [ -z "$socket" ] || said unix-socket "$socket"
    said dump-header "$work/heads/$1"
    printf 'write-out = "%%{http_code} %%{url_effective}\\n"\n'
}

# read_files PATH ..: a pin holds one generation for one connection, which curl keeps over all its addresses. So these files fit
# together, whatever is published meanwhile. None is changed unless all came.
read_files() {
    for path; do path "$path"; done
    {
        group pin
        printf 'request = POST\nretry = %d\nretry-connrefused\n' $((tries - 1))
        said url "$base/pin"
        said output "$work/pinned"
        number=0
        for path; do
            echo next
            number=$((number + 1))
            group "$number"
            said url "$base/$path"
            said output "$work/files/$path"
        done
    } >"$work/config"
    mkdir "$work/heads"
    if ! curl --fail-early -K "$work/config" >"$work/codes"; then
        sed -n -e '/^2/d' -e 's/^000 \(.*\)/    \1 gives no answer/p' -e 's/^\([0-9]*\) \(http.*\)/    \2 is answered \1/p' "$work/codes" >&2
        fail "nothing is written, since not all could be read. (A pin wants hipsd's own address: a proxy keeps none.)"
    fi
    held=$(cat "$work"/heads/* | tr -d '\r' | sed -n 's/^survey-prefix: //Ip' | sort -u | wc -l)
    [ "$held" = 1 ] || fail "nothing is written, since the replies are of several generations"
    for path; do
        mkdir -p "$(dirname "$path")"
        cp "$work/files/$path" "$path"
    done
}

command=${1:-}
[ $# = 0 ] || shift
address "$base"
{ whole "$tries" && [ "$tries" -gt 0 ]; } || refuse "HIPSD_TRIES is '$tries': how often an edit is sent, 1 or more"
case $command in
    put | add | replace)
        wants $# "$command" LEAF FILE
        tile "$2"
        path=$(leaf_path "$1")
        edit "$command" "$path" "$work/body"
        ;;
    remove)
        wants $# remove LEAF
        path=$(leaf_path "$1")
        edit remove "$path" ''
        ;;
    # An entry of a batch is a line, 'put LEAF LENGTH', 'add LEAF LENGTH', 'replace LEAF LENGTH' or 'remove LEAF', and the
    # LENGTH bytes of the tile's file behind it.
    batch)
        wants $# batch
        cat >"$work/batch"
        [ -s "$work/batch" ] || refuse "batch reads its edits from standard input, and there are none"
        edit batch - "$work/batch"
        ;;
    publish)
        wants $# publish
        edit publish - ''
        ;;
    get)
        wants $# get PATH
        path "$1"
        fetch --url "$base/$1"
        ;;
    read)
        [ $# -gt 0 ] || refuse "read wants at least one PATH"
        read_files "$@"
        ;;
    replay)
        [ $# = 3 ] || wants $# replay FOLDER ADDRESS
        replay "$@"
        ;;
    rest)
        [ $# = 4 ] || wants $# rest FOLDER EDITS NEW
        rest "$@"
        ;;
    *)
        [ -z "$command" ] || echo "edit.sh: '$command' is no command; there are" >&2
        sed -n 's/^#  *\(examples.*\)/    \1/p' "$0" >&2
        exit 2
        ;;
esac
