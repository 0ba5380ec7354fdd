# What the commands of this folder share. `top` is the repository's own folder, with no link in it.

# The programs of dist/: crates of crates.txt that have a main, and that a proof builds.
programs="scotty_cli scotty_rows scotty_part"

# The program that bench/refusals runs beside them. It isn't handed in.
tried="refused_calls"

fail() {
    echo "scotty: $1" >&2
    exit 70
}

# Opens what is closed of standard input, output and error, so that no file that the program opens comes to stand in its
# place: input is empty then, each write of output fails, and what goes to standard error is lost.
open_closed() {
    { true <&0; } 2>/dev/null || exec </dev/null
    { true >&1; } 2>/dev/null || exec 1</dev/null
    { true >&2; } 2>/dev/null || exec 2>/dev/null
}

# Whether the first of the words asks for help.
asks_help() {
    case "${1-}" in
        -h | --help | help) ;;
        *) return 1 ;;
    esac
}

# Whether the reader of standard output is gone, to be asked where a write of it failed: one more is tried.
is_reader_gone() {
    [ -p /dev/stdout ] || return 1
    (
        trap - PIPE
        printf '\n' 2>/dev/null
    )
    [ $? -eq 141 ]
}

# Ends where the toolchain isn't there.
want_toolchain() {
    command -v rt >/dev/null 2>&1 ||
        fail "the toolchain's command rt isn't on the path, and $1 needs it (CONTRIBUTING.md names the version)"
}

# The line of the toolchain that is on the path.
kit() {
    rt version 2>/dev/null | head -n 1
}

# The crates of which these programs consist, each behind those that it stands on.
crates_of() {
    awk -v programs="$*" '
        function visit(name, names, many, i) {
            if (name in seen || !(name in below)) return
            seen[name] = 1
            many = split(below[name], names, " ")
            for (i = 1; i <= many; i++) visit(names[i])
            print name
        }
        /^[a-z]/ { split($0, sides, ":"); split(sides[1], words, " "); below[words[1]] = sides[2] }
        END { many = split(programs, all, " "); for (i = 1; i <= many; i++) visit(all[i]) }
    ' "$top/crates.txt"
}

# One checksum of all that a program is made of: its crates' lines in crates.txt, HANDLES, and the name and the
# bytes of each file of src/, specs/ and proofs/.
sum_of_sources() (
    cd "$top"
    crates=$(crates_of "$1")
    {
        for crate in $crates; do
            grep "^$crate[ :]" crates.txt
        done
        cat HANDLES
        for crate in $crates; do
            for part in src specs proofs; do
                [ ! -d "crates/$crate/$part" ] || echo "crates/$crate/$part"
            done
        done | tr '\n' '\0' | xargs -0 sh -c 'find "$@" -type f -print0' find | LC_ALL=C sort -z | xargs -0 sha256sum
    } | sha256sum | cut -d ' ' -f 1
)

# Where a proof leaves a program. Beside it stand the checksum of the sources of which it was proved and built
# (.sources), the line of the kit that did (.kit), and its own checksum (.program).
built() {
    echo "$top/crates/$1/out/$1"
}

# The checksum of a file; nothing where it can't be read.
sum_of_file() {
    sum=$({ sha256sum <"$1"; } 2>/dev/null) || return 0
    echo "${sum%% *}"
}

# The program that is there was proved and built of the sources with this checksum.
record() {
    echo "$2" >"$(built "$1").sources"
    kit >"$(built "$1").kit"
    sum_of_file "$(built "$1")" >"$(built "$1").program"
}

# No program counts as proved.
forget() {
    rm -f "$(built "$1").sources" "$(built "$1").kit" "$(built "$1").program"
}

# The program that is there is the one that was proved and built.
is_built() {
    [ -x "$(built "$1")" ] && [ -s "$(built "$1").program" ] &&
        is_of_sum "$(built "$1")" "$(cat "$(built "$1").program")"
}

# The program that is there was proved and built of exactly the sources that are there.
is_proved() {
    is_built "$1" && [ -f "$(built "$1").sources" ] &&
        [ "$(cat "$(built "$1").sources")" = "$(sum_of_sources "$1")" ]
}

# What is recorded of a program in dist/: the checksum of its `sources`, the `kit` that built it, or the checksum of
# the `program` itself.
recorded() {
    [ ! -r "$top/dist/$1.built" ] || while read -r name value; do
        [ "$name" != "$2" ] || echo "$value"
    done <"$top/dist/$1.built"
}

# Whether a program in dist/ is recorded as it stands there, and of the sources that are there. Else it says what isn't.
is_released() {
    if [ ! -x "$top/dist/$1" ]; then
        echo "there is no dist/$1: run bin/prove, and then bin/release"
        return 1
    fi
    if [ "$(recorded "$1" program)" != "$(sha256sum <"$top/dist/$1" | cut -d ' ' -f 1)" ]; then
        echo "dist/$1 isn't the program that is recorded in dist/$1.built: run bin/prove, and then bin/release"
        return 1
    fi
    if [ "$(recorded "$1" sources)" != "$(sum_of_sources "$1")" ]; then
        echo "dist/$1 is of other sources than those that are there: run bin/prove, and then bin/release"
        return 1
    fi
}

# Whether a source of any crate, or another of these files, is newer than the first. It reads no file.
is_newer() {
    first=$1
    shift
    [ -n "$(find "$top"/crates/*/src "$top"/crates/*/specs "$top"/crates/*/proofs "$top/crates.txt" "$top/HANDLES" "$@" \
        -newer "$first" -print -quit 2>/dev/null)" ]
}

# The user's folder for what is remembered from call to call; empty where there is none.
cache=
[ -z "${XDG_CACHE_HOME-}${HOME-}" ] || cache="${XDG_CACHE_HOME:-$HOME/.cache}/scotty"

# Keeps a line in a file of that folder, if it can.
remember() {
    [ -z "$cache" ] ||
        (umask 077 && mkdir -p "$cache" && echo "$2" >"$cache/$1.$$" && mv -f "$cache/$1.$$" "$cache/$1") 2>/dev/null || true
}

# Whether this line is kept there, and the folder and the file are the user's own.
is_remembered() {
    [ -n "$cache" ] && [ -O "$cache" ] && [ -O "$cache/$1" ] && read -r line <"$cache/$1" && [ "$line" = "$2" ]
}

# Whether a file has this checksum. It is taken only where the file's place, size or times differ from those with which
# it was last taken; without a cache each time.
is_of_sum() {
    [ -n "$2" ] || return 1
    mark=$(stat -Lc '%d %i %s %.9Y %.9Z' "$1" 2>/dev/null) || mark=
    [ -z "$mark" ] || ! is_remembered "${1##*/}.sum" "$1 $mark $2" || return 0
    [ "$(sum_of_file "$1")" = "$2" ] || return 1
    [ -z "$mark" ] || remember "${1##*/}.sum" "$1 $mark $2"
}

# Whether the program that is there is proved: the checksum of its sources is taken only where a file is newer than its
# record.
is_still_proved() {
    [ -x "$top/crates/$1/out/$1" ] && [ -f "$top/crates/$1/out/$1.sources" ] && is_built "$1" || return 1
    is_newer "$top/crates/$1/out/$1.sources" || return 0
    is_proved "$1" || return 1
    touch "$(built "$1").sources" 2>/dev/null || true
}

# Whether dist/ is of the sources that are there. A checksum is taken only where a file is newer than the last look, and
# than the program. The look is kept beside what is built, or else in the user's cache.
is_of_sources() {
    seen="$top/crates/$1/out/$1.seen"
    same=same
    if [ ! -f "$seen" ] && ! { mkdir -p "${seen%/*}" && [ -w "${seen%/*}" ]; } 2>/dev/null; then
        seen="$cache/$1.seen"
        same="same $top"
    fi
    if [ -f "$seen" ] && ! is_newer "$seen" "$top/dist"; then
        read -r seen_now <"$seen"
    else
        seen_now=changed
        ! is_newer "$top/dist/$1" || [ "$(recorded "$1" sources)" = "$(sum_of_sources "$1")" ] && seen_now=$same
        { mkdir -p "${seen%/*}" && echo "$seen_now" >"$seen"; } 2>/dev/null || true
    fi
    [ "$seen_now" = "$same" ]
}

# Ends where the program in dist/ isn't the one that is recorded there.
want_released() {
    file="$top/dist/$1"
    [ -e "$file" ] || fail "there is no program: neither dist/$1, nor one that bin/prove built"
    [ -f "$file" ] || fail "dist/$1 is no file, and no program was run"
    [ -s "$file" ] || fail "dist/$1 is empty, and no program was run: get dist/ once more"
    wanted=$(recorded "$1" program)
    [ -n "$wanted" ] ||
        fail "dist/$1.built doesn't say which program dist/$1 is, and none was run: get dist/ once more"
    if ! is_of_sum "$file" "$wanted"; then
        [ "$(head -c 12 "$file" 2>/dev/null)" != "version http" ] ||
            fail "dist/$1 is a pointer of git-lfs, and no program was run: git lfs pull gets the program"
        fail "dist/$1 isn't the program that is recorded in dist/$1.built (cut off, or another), and it wasn't run: \
get dist/ once more, or build one with bin/prove"
    fi
    [ -x "$file" ] || fail "dist/$1 may not be run: chmod +x allows it"
}

# Sets `chosen` to the program to be run: the one that was proved and built here of exactly the sources that are
# there, or else that of dist/, if it is the one that is recorded.
choose() {
    open_closed
    chosen="$top/crates/$1/out/$1"
    is_still_proved "$1" && return
    chosen="$top/dist/$1"
    want_released "$1"
    [ -e /lib64/ld-linux-x86-64.so.2 ] ||
        fail "dist/$1 runs on Linux on x86-64 with glibc alone, and for another system bin/prove builds none"
    is_of_sources "$1" ||
        echo "scotty: sources were changed since dist/$1 was built, and that is run; bin/prove builds one of them" >&2
}

# Of what the chosen program $1 was built, and by what, behind the name $2 of its command. It was compared with what is
# recorded of it.
say_version() {
    case "$chosen" in
        "$top/dist/"*) sources=$(recorded "$1" sources) kit=$(recorded "$1" kit) ;;
        *) sources=$(cat "$chosen.sources") kit=$(cat "$chosen.kit" 2>/dev/null) ;;
    esac
    echo "$2: $chosen, of the sources $sources, proved and built by ${kit:-an unknown kit}"
}
