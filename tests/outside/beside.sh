# What `accm` and `ppp` share: packages of others, the program accm.c of both readers, what is printed of a line.
#   . tests/outside/beside.sh KIND
# KIND is the check kind of ours. The shell stands in the folder of the project.
# (for shellcheck: /etc/os-release is the system's; sed has an & that the shell lacks)
# shellcheck shell=bash disable=SC1091,SC2001
ulimit -c 0 # outside readers die of some lines
export LC_ALL=C
kind=$1
fetched=target/outside
lwip="lwip-2.1.3"
work=$(mktemp -d /tmp/beside.XXXXXX)
trap 'rm -rf "$work"' EXIT
passed=0
failed=0

# fetch PLACE FILE SUM: a file of Debian's pool into target/outside; the sum is that of Debian's signed list
fetch() {
    mkdir -p $fetched
    if ! /usr/lib/apt/apt-helper download-file "http://deb.debian.org/debian/pool/main/$1/$2" "$fetched/$2" "SHA256:$3" \
        >"$work/fetch" 2>&1; then
        cat "$work/fetch"
        exit 1
    fi
}

# the source from which Debian 12 builds lwip 2.1.3+dfsg1-2. Debian's patches touch none of the files that are compiled here.
fetch_lwip() {
    local tarball=lwip_2.1.3+dfsg1.orig.tar.xz
    fetch l/lwip $tarball 0a8276d09fc4e97bbba2f953d74af2388fc2195ea156be9d7589e297a68fde24
    tar -xf "$fetched/$tarball" -C $fetched $lwip/src
    rm "$fetched/$tarball"
}

# build PROGRAM..: each of its own file, of the lines, of lwIP, and of the archive
build() {
    local file program flags=(-std=c11 -D_POSIX_C_SOURCE=200809L -O2) source=$fetched/$lwip/src
    [[ -e target/libhasfandur.a ]] || make --quiet
    [[ -e $source/netif/ppp/pppos.c ]] || fetch_lwip
    mkdir "$work/arch"
    : >"$work/arch/cc.h" # what a port may say of its compiler: nothing
    flags+=(-Itests/outside "-isystem$work" "-isystem$source/include")
    for file in netif/ppp/pppos core/pbuf core/memp core/mem core/stats core/def; do
        gcc "${flags[@]}" -c $source/$file.c -o "$work/${file##*/}.o"
    done
    for program in "$@"; do
        gcc "${flags[@]}" -Wall -Wextra -Werror -Iinclude tests/outside/{"$program",lines,frames,lwip_end}.c "$work"/*.o \
            target/libhasfandur.a -o "$work/$program"
    done
}

# heading PROGRAM..: builds them, and says of what
heading() {
    date -u '+date: %Y-%m-%d %H:%M UTC'
    echo "system: $(. /etc/os-release && echo "$PRETTY_NAME"), $(uname -m)"
    build "$@"
    echo "version: $lwip, from Debian's lwip 2.1.3+dfsg1-2"
    dpkg-query -W -f 'version: ${Package} ${Version}\n' gcc libc6-dev
    echo "version: hasfandur $("$work/accm" "$kind" version)"
}

# judge STATUS WORDS: counts, and prints what was compared
judge() {
    if (($1 == 0)); then
        passed=$((passed + 1))
        echo "ok: $2"
    else
        failed=$((failed + 1))
        echo "FAILED: $2"
    fi
}

# drawn LEVEL ACCM COUNT: the program compares
drawn() {
    local answer status=0
    answer=$("$work/accm" "$kind" lines "$@") || status=$?
    judge $status "level $1, map $2: $answer"
}

# shorten HEX: with spaces, a long one by its ends
shorten() {
    local all
    all=$(sed 's/../ &/g' <<<"$1")
    ((${#all} <= 100)) || all=" ${all:1:23} ..${all: -9} ($((${#1} / 2)) octets)"
    echo "${all:- nothing}"
}

# also HEX: prints what a further reader makes of a line; a script that has one says so
also() {
    :
}

# reading NAME HEX EXPECTED [LEVEL ACCM]: what each makes of a line
reading() {
    local answer level=${4-1} map=${5-000A0000} status=0
    echo "- $1:$(shorten "$2")"
    answer=$("$work/accm" "$kind" ours "$level" "$2")
    echo "  ours: $answer"
    if [[ $answer == "$3" ]]; then
        passed=$((passed + 1))
    else
        failed=$((failed + 1))
        echo "  FAILED: ours was to say: $3"
    fi
    answer=$("$work/accm" "$kind" lwip "$map" "$2" 2>&1) || status=$?
    ((status == 0)) || answer+="dies of signal $((status - 128))"
    echo "  lwIP: $answer"
    also "$2"
}

# frame_of LENGTH: a good frame of so many octets on the line
frame_of() {
    "$work/accm" "$kind" frame "$1"
}

# a frame of both with either check, octets 7E 7D 11 13 among its information, as level 1 writes it; and what ours says of it
frame=FF03C0217D5E7D5D7D317D332BB61D
whole="frame FF 03 C0 21 7E 7D 11 13 2B B6 1D"

flow_control() {
    reading "none" "7E${frame}7E" "$whole"
    reading "before the first flag" "11137E${frame}7E" "$whole"
    reading "among octets" 7E11FF0313C0217D5E7D5D7D317D332B1111B61D137E "$whole"
    reading "between 7D and its partner" 7EFF03C0217D115E7D135D7D1111317D1311332BB61D7E "$whole"
    reading "segments of nothing else" "7E117E1313117E${frame}7E" "$whole"
    reading "among octets, lwIP with the map of level 0" 7E11FF0313C0217D5E7D5D7D317D332B1111B61D137E "$whole" 1 00000000
    reading "raw ones at level 0, where they are data, as its writer writes them" 7EFF03C0217D5E7D5D11132BB61D7E "$whole" 0 00000000
    reading "one more at level 0" 7E11FF03C0217D5E7D5D11132BB61D7E "14 QAFT_BAD_CHECK" 0 00000000
    reading "other control octets raw" 7EFF03C021000A1F7F919323DC527E "frame FF 03 C0 21 00 0A 1F 7F 91 93 23 DC 52"
    reading "the same, lwIP with the map that PPP begins with" 7EFF03C021000A1F7F919323DC527E \
        "frame FF 03 C0 21 00 0A 1F 7F 91 93 23 DC 52" 1 FFFFFFFF
}

escapes() {
    reading "7D before the flag, in a frame" 7EFF03C021417D7E "11 QAFT_ABORTED"
    reading "7D, then 11 and 13, before the flag" 7EFF03C021417D11137E "11 QAFT_ABORTED"
    reading "7D before the flag, in a header" 7EFF037D7E "11 QAFT_ABORTED"
    reading "7D alone" 7E7D7E "11 QAFT_ABORTED"
    reading "7D, then 11 and 13, alone" 7E7D11137E "11 QAFT_ABORTED"
    reading "7D behind a whole frame" "7E${frame}7D7E" "11 QAFT_ABORTED"
    reading "a pair for an octet that needs none" 7EFF037DE0217D5E7D5D7D317D332BB61D7E "16 QAFT_BAD_PAIR"
    reading "7D 7D for 5D" 7EFF03C0217D7D414198A67E "16 QAFT_BAD_PAIR"
    reading "7D 7D 5E for 7E" 7EFF03C0217D7D5E7D5D7D317D332BB61D7E "16 QAFT_BAD_PAIR"
    reading "7D 31 and 7D 33 at level 0" 7EFF03C0217D5E7D5D7D317D332BB61D7E "16 QAFT_BAD_PAIR" 0 00000000
    reading "7D 11 at level 0, for 31" 7EFF037D114141BE7E "16 QAFT_BAD_PAIR" 0 00000000
}

ending() {
    echo
    echo "$passed passed, $failed failed"
    ((failed == 0))
}
