# Which file is run for the name of a program, and what it is made of: what the launchers, tools/program and tools/carry share.
# A shell reads this with `top` set to the folder of the repository, and `name` to what its messages begin with. All other
# paths are those below `top`.
#
# dist/programs lists the programs. The first of these that fits is run:
#
# - what was built here, crates/CRATE/out/CRATE, where made-from beside it has the sum of the sources that stand here and that of
#   its bytes;
# - what is carried, dist/x86_64-linux/NAME, where dist/x86_64-linux/made-from has the same, and where programs that are carried
#   run on this machine;
# - what the kit then proves and builds. Standard error tells of each crate that is proved, with its number of all that the
#   program stands on, and the time so far.
#
# Sums decide, and never times: a checkout sets them all anew, and a source that is put back may have an older one.
#
# A program's sources are crates.txt, and src, specs and proofs of each crate that it stands on. made-from beside what was built
# has the line `NAME: sources SUM built SUM`, where NAME is that of the crate: the first sum is that of the sources as they stood
# before the build began. It is written where they stood still until the build had ended.
dist=dist/x86_64-linux
record=$dist/made-from

say() {
    echo "$name: $*" >&2
}

# Sets `crate` to that of a program.
find_crate() {
    while IFS=': ' read -r listed crate; do
        [ "$listed" != "$1" ] || return 0
    done <"$top/dist/programs"
    say "dist/programs has no $1"
    return 1
}

# Sets `crates` to those that some crates stand on, with themselves, and `sources` to where their sources stand.
find_sources() {
    crates=$(awk -F: -v above="$*" '
        /^[a-z]/ { split($1, words, " "); below[words[1]] = $2 }
        END {
            last = split(above, waiting, " ")
            for (at = 1; at <= last; at++) {
                if (!(waiting[at] in below) || seen[waiting[at]]++) continue
                print waiting[at]
                found = split(below[waiting[at]], names, " ")
                for (i = 1; i <= found; i++) waiting[++last] = names[i]
            }
        }' "$top/crates.txt")
    sources=crates.txt
    for one in $crates; do
        for part in src specs proofs; do
            [ ! -d "$top/crates/$one/$part" ] || sources="$sources crates/$one/$part"
        done
    done
}

# Whether a built program is there, and is made of `sources` as they stand.
is_current() {
    [ -x "$top/$1" ] && read_record "${1%/*}/made-from" "${1##*/}" && [ -n "$of_sources" ] || return
    [ "$of_built" = "$(sum_of_file "$1")" ] && [ "$of_sources" = "$(sum_of_sources)" ]
}

# What is told of `sources` before a build of them, and compared after it: their sum, and one of the times at which they changed
# last, which tells also of a source that was edited and put back meanwhile, as far as stat tells times.
moment() {
    times=$({ cd "$top" && find $sources -type f -print0 | xargs -0 stat -c '%n %i %s %.Z' | LC_ALL=C sort; } 2>/dev/null | sha256sum)
    echo "$(sum_of_sources) ${times%% *}"
}

# Writes what a program that was built here is made of, where its sources are those of the moment before it was built.
keep_record() {
    [ -x "$top/$1" ] && [ "$(moment)" = "$2" ] || return
    echo "${1##*/}: sources ${2%% *} built $(sum_of_file "$1")" >"$top/${1%/*}/made-from"
}

sum_of_file() {
    sum=$(sha256sum <"$top/$1") && echo "${sum%% *}"
}

# The SHA-256 of the list that sha256sum writes of all files of `sources`, in byte order of their paths.
sum_of_sources() {
    sum=$(cd "$top" && find $sources -type f -exec sha256sum {} + | LC_ALL=C sort -k 2 | sha256sum) && echo "${sum%% *}"
}

# Sets what a file made-from has of a program: the sums of its sources, and of its bytes before and after they were stripped.
read_record() {
    of_sources='' of_built='' of_carried=''
    [ -r "$top/$1" ] || return
    while read -r word _ one _ two _ three; do
        [ "$word" != "$2:" ] || of_sources=$one of_built=$two of_carried=$three
    done <"$top/$1"
}

# Whether a carried program has the bytes that made-from says.
is_as_carried() {
    read_record "$record" "${1##*/}" && [ -n "$of_carried" ] && [ "$of_carried" = "$(sum_of_file "$1" 2>/dev/null)" ]
}

# Whether the carried program fits. Where it doesn't, `why` says so; it is empty where none is carried.
fits() {
    why=''
    [ -f "$top/$carried" ] && read_record "$record" "${carried##*/}" && [ -n "$of_sources" ] || return
    if [ "$(uname -sm)" != "Linux x86_64" ]; then
        why="the carried program is for Linux on x86-64"
    elif [ "$(sum_of_sources)" != "$of_sources" ]; then
        why="the carried program was made of other sources"
    elif ! is_as_carried "$carried"; then
        why="the carried program has other bytes than $record says"
    elif ! is_as_carried "$dist/hostext"; then
        why="$dist/hostext, which shows whether the carried programs run here, has other bytes than $record says"
    elif ! [ -x "$top/$carried" ] || ! "$top/$dist/hostext" --version </dev/null >/dev/null 2>&1; then
        why="the carried program doesn't run here"
    else
        return 0
    fi
    return 1
}

# Sets `kept` to where it is kept that a program was looked at: below the path of the checkout, in the user's cache. The file
# there has a sum of all that the answer rests on, and the answer; NAME.list beside it has the paths.
find_kept() {
    cache=${XDG_CACHE_HOME:-${HOME:+$HOME/.cache}}
    case $cache in
        /*) kept=$cache/hostext$top/$1.program ;;
        *) kept='' ;;
    esac
}

# The sum: the machine, and the file, the times and the size at each path. It only says whether anything may have changed. Where
# these can't be told no two sums are the same.
state() {
    {
        uname -snm
        cd "$top" && xargs -0 stat -c '%n %i %s %.Y %.Z' <"$kept.list" || date "+$$ %c"
    } 2>/dev/null | sha256sum
}

# Whether nothing has changed since a program was looked at; `program` is then the answer.
is_known() {
    [ -r "$kept" ] && read -r found _ answer <"$kept" || return
    now=$(state)
    [ "$found" = "${now%% *}" ] || return
    case $answer in
        built) program=$built ;;
        carried) program=$carried ;;
        *) return 1 ;;
    esac
}

# Lists the paths that the answer rests on: with the folders, so that nothing comes or goes unseen.
list() {
    cd "$top" && find $sources -print0 || return
    for place in $crates; do
        printf 'crates/%s\0' "$place"
    done
    for place in "${built%/*}" "$built" "${built%/*}/made-from" dist dist/programs "$dist" "$record" "$carried" tools/programs.sh; do
        [ ! -e "$top/$place" ] || printf '%s\0' "$place"
    done
}

# Sets `program` to what was built or is carried, and keeps the answer. The sum is taken before, so that whatever changes
# meanwhile changes it.
look() {
    before=''
    if [ -n "$kept" ] && { mkdir -p "${kept%/*}" && (list) >"$kept.list"; } 2>/dev/null; then
        before=$(state)
    fi
    if is_current "$built"; then
        program=$built answer=built
    elif fits; then
        program=$carried answer=carried
    else
        return 1
    fi
    [ -z "$before" ] || { echo "$before $answer" >"$kept"; } 2>/dev/null || true
}

so_far() {
    seconds=$(($(date +%s) - began))
    echo "$((seconds / 60)) min $((seconds % 60)) s"
}

# Keeps what the kit says, tells of each crate that it proved, and ends as it did.
follow() {
    proved=0 status=1
    set -- $crates
    while IFS= read -r line; do
        printf '%s\n' "$line" >>"$room/log"
        case $line in
            "crate "*) checked=${line#crate } ;;
            "logic=proved"*)
                proved=$((proved + 1))
                say "$proved of $# crates proved: ${checked%%:*} ($(so_far))"
                ;;
            "the kit ended with "*) status=${line##* } ;;
        esac
    done
    return "$status"
}

# The kit runs what it built, with words by which that ends at once.
run_by_kit() {
    case $crate in
        ext_cli) rt run -- --version ;;
        ext_pubcli | ext_eroscli) rt run -- --help ;;
        ext_folder_probe) rt run -- disk . ;;
        *) rt run ;;
    esac
}

# Whatever of a crate's proof was kept since it last changed, the kit doesn't do again. A program whose sources were edited
# meanwhile gets no record, so that the next launch builds it anew.
prove_and_build() {
    say "proving and building the program; the first time this takes long"
    began=$(date +%s) before=$(moment)
    (
        cd "$top/crates/$crate" && run_by_kit </dev/null 2>&1
        echo "the kit ended with $?"
    ) | follow && [ -x "$top/$built" ] || return
    keep_record "$built" "$before" || true
}

# Waits until nobody else builds in this checkout. The lock goes with the last process that has the folder open. Without flock
# only the locks of the kit keep two builds apart.
lock() {
    exec 9<"$top/crates"
    command -v flock >/dev/null || return 0
    flock -n 9 && return
    say "waiting for another launch, which builds"
    flock 9
}

build() {
    lock
    if ! is_current "$built"; then
        room=$(mktemp -d) || exit 125
        trap 'rm -rf "$room"' EXIT
        trap 'exit 125' HUP INT TERM
        [ -z "$why" ] || say "$why"
        if ! prove_and_build; then
            tail -n 20 "$room/log" >&2
            say "the build failed"
            exit 125
        fi
        say "built ($(so_far))"
        rm -rf "$room"
    fi
    program=$built
    exec 9<&-
}

# Sets `program` to the path of the file that is run for a program's name. Where there is none the shell ends with 125.
find_program() {
    find_crate "$1" || exit 125
    built=crates/$crate/out/$crate carried=$dist/$1
    find_kept "$1"
    is_known || prepare
    program=$top/$program
}

prepare() {
    find_sources "$crate"
    if look; then
        return
    elif command -v rt >/dev/null; then
        build
    else
        say "${why:-no program is carried here}, so it has to be proved and built; that takes the Rattle kit, whose command rt isn't on the PATH"
        say "the Rattle kit is the prover, the compiler and the libraries of Rattle, the language of hostext; README.md names its version"
        exit 125
    fi
}
