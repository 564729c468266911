# shellcheck shell=sh
# What the commands share. Each reads this file first; it sets name, the command's own for messages, and root, the repository's folder.
name=${0##*/}
root=$(CDPATH='' cd -- "$(dirname -- "$0")/.." && pwd -P) || exit 1

# Messages go to standard error. Status 1 is refused or failed, 2 wrong use.
say() { printf '%s: %s\n' "$name" "$*" >&2; }
fail() {
    say "$@"
    exit 1
}
misused() {
    say "$*; --help says how it is used"
    exit 2
}

# The comment at the head of a command is its help: helped "$@" prints it and ends where some word asks for it.
helped() {
    for word in "$@"; do
        case $word in
        -h | --help)
            sed -n '2,${/^#/!q;s/^# \{0,1\}//;p;}' "$0"
            exit 0
            ;;
        esac
    done
}

# For a command without words: no_words "$@".
no_words() {
    [ $# -eq 0 ] || misused "it takes no words, and '$1' is one"
}

# A folder for what is kept until the command ends.
work_folder() {
    work=$(mktemp -d) || fail "no folder for temporary files could be made"
    trap 'rm -rf "$work"' EXIT
    trap 'exit 129' HUP
    trap 'exit 130' INT
    trap 'exit 143' TERM
}

need_rt() {
    command -v rt >/dev/null || fail "rt, the command of the Rattle kit, is not here: is the kit's bin folder on PATH?"
}

# Sets tools: the folder of the kit's compiler, linker and C library for x86-64.
find_tools() {
    need_rt
    kit=$(CDPATH='' cd -- "$(dirname -- "$(readlink -f "$(command -v rt)")")/.." && pwd -P)
    tools=$kit/toolchain
    [ -d "$tools" ] || fail "the kit has no folder toolchain"
}

# Sets emulator: what runs programs for x86-64 on another machine, and nothing on such a one.
find_emulator() {
    emulator=''
    [ "$(uname -m)" = x86_64 ] || emulator=$(command -v qemu-x86_64) || fail "there is no emulator for x86-64 here, qemu-x86_64 (Debian: qemu-user)"
}

# The crates of crates.txt that a crate stands on, in the order in which rt builds them, and itself as the last.
crates_under() {
    awk -v crate="$1" '
        function visit(n,    k, m, a) {
            if (!(n in needs) || n in seen) return
            seen[n] = 1
            m = split(needs[n], a, " ")
            for (k = 1; k <= m; k++) visit(a[k])
            print n
        }
        { sub(/#.*/, ""); at = index($0, ":") }
        at { split(substr($0, 1, at - 1), w, " "); needs[w[1]] = substr($0, at + 1) } # behind the name may stand staticlib
        END { visit(crate) }' "$root/crates.txt"
}

# Whether the file that is made from a crate is missing or older than some source: stale FILE CRATE
stale() {
    [ -f "$1" ] || return 0
    # shellcheck disable=SC2046
    newer=$(cd "$root" && find crates.txt $(crates_under "$2" | sed 's,.*,crates/&/src crates/&/specs crates/&/proofs,') -newer "$1" 2>/dev/null)
    [ -n "$newer" ]
}

# Tells how many crates are proved, of those under one, and keeps what rt says: followed FILE CRATE
# Of those that did not change rt says nothing; they are counted by their place in its order.
followed() {
    under=$(crates_under "$2") on='' since=0
    while IFS= read -r line; do
        printf '%s\n' "$line" >>"$1"
        case $line in
        'rt: chose --jobs '*' for '*) on=${line##* } since=$(date +%s) ;;
        'logic=proved '*)
            say "$(printf '%s\n' "$under" | sed -n "/^$on\$/=") of $(printf '%s\n' "$under" | wc -l) crates proved ($on, $(($(date +%s) - since)) s)"
            ;;
        esac
    done
}

# Has rt prove a crate and all that it stands on, and make a file of it. How far it is goes to standard error, and what rt says of a crate that
# is not proved. A crate that did not change is not proved again.
#     prove CRATE FILE VERB     rt's verb: lib, or run, which also runs the program once, on nothing
prove() {
    need_rt
    crate=$1 made=$2 old='' total=$(crates_under "$1" | wc -l)
    if stale "$made" "$crate"; then
        old=yes
        say "proving $crate and what it stands on, $total crates: some minutes the first time"
    fi
    : >"$work/began" # what changes from here on is newer than what is made
    : >"$work/rt"
    {
        (cd "$root/crates/$crate" && rt "$3") </dev/null 2>&1
        echo $? >"$work/status"
    } | followed "$work/rt" "$crate"
    status=$(cat "$work/status")
    [ "$status" -ne 0 ] || {
        touch -r "$work/began" "$made" 2>/dev/null # where it may not be written nothing is lost
        return
    }
    grep -v -e '^rt: chose ' -e ': proved$' -e '^statements ' -e '^library ' -e '^crate ' -e '^axioms ' -e '^only=' -e '^linked ' -e '^logic ' -e '^logic=proved ' "$work/rt" >&2
    ! grep -q '^rt: running ' "$work/rt" || fail "$crate is proved, and its run failed"
    case $status in
    1)
        unproved=$(sed -n 's/^rt: the library \([^ ]*\) did not build.*/\1/p' "$work/rt" | head -n 1)
        fail "the proof failed: ${unproved:-$crate} is not proved, and nothing was made"
        ;;
    3) fail "the prover could not tell whether $crate is proved, and nothing was made" ;;
    *) fail "rt itself failed, with status $status, and nothing was made" ;;
    esac
}

# What a number and a place mean, by the table: words NUMBER PLACE
words() {
    awk -F '\t' -v number="$1" -v place="$2" '
        $1 == number && ($2 == "*" || $2 == place) { gsub(/[{]place[}]/, place, $3); print $3; exit }' "$root/include/words.txt"
}

# The file for pkg-config: pc_file PREFIX LIB, where LIB is a folder below PREFIX.
pc_file() {
    # shellcheck disable=SC2016
    printf 'prefix=%s\nincludedir=${prefix}/include\nlibdir=${prefix}/%s\n\n' "$(printf %s "$1" | sed 's/ /\\ /g')" "$2"
    echo 'Name: bakebutton'
    echo 'Description: a proved engine that runs Boolean circuits at three sites on 2-of-3 replicated shares'
    echo "Version: $(cat "$root/VERSION")"
    # shellcheck disable=SC2016
    printf '%s\n' 'Cflags: -I${includedir}' 'Libs: -L${libdir} -lbakebutton'
}
