# shellcheck shell=bash disable=SC2034
# What all checks share. A script of checks sources this file first, says `expects N`, and then makes so many checks, in
# a new folder of its own. The last lines of each are 'K not run: NAMES', or '0 not run', and 'N passed, M failed'. A check that
# is neither made nor said to be left out has failed, so a script that ends early, or can't be read, passes nothing.
#
# NDF_PROGRAMS is a folder with the programs, each under its crate's name; else they are those of crates/*/out, which
# the gate proved.
top=$(cd "$(dirname "${BASH_SOURCE[0]}")/.." && pwd) || exit 1
toolchain=$(command -v rt)
room=$(mktemp -d) && chmod 711 "$room" && cd "$room" || exit 1
wanted_checks=
passed=0
failed=0
left_out=0
left_names=
trap 'exit 129' HUP
trap 'exit 130' INT
trap 'exit 143' TERM
trap finish EXIT

# program NAME: where the crate's program is. A trial of it may still be on its way.
program() {
    if [ "$NDF_PROGRAMS" ]; then
        within 900 is_made "$NDF_PROGRAMS/$1"
        echo "$NDF_PROGRAMS/$1"
    else
        echo "$top/crates/$1/out/$1"
    fi
}

# is_made PROGRAM: it is there, or was refused, or is a link to one that isn't there.
is_made() {
    [ -e "$1" ] || [ -e "$1.refused" ] || [ -L "$1" ]
}

# expects N: the script has so many checks, with those that are not run.
expects() {
    wanted_checks=$1
}

# count yes|no NAME: a check has passed, or has failed.
count() {
    if [ "$1" = yes ]; then
        passed=$((passed + 1))
    else
        failed=$((failed + 1))
        echo "FAILED: $2"
    fi
}

# report NAME yes|no: what a check found.
report() {
    count "$2" "$1"
    [ "$2" = yes ] && return
    # What was written last, if the check keeps it by these names.
    for written in out err; do [ ! -s "$written" ] || tail -n 3 "$written" | cat -v | sed "s/^/    $written: /"; done
}

# expect NAME STATUS OUTPUT COMPLAINT COMMAND..: the command ends with this status, writes exactly
# the file OUTPUT, and exactly the line COMPLAINT to standard error.
expect() {
    local name=$1 status=$2 output=$3 complaint=$4 well=no
    shift 4
    "$@" >out 2>err
    [ $? = "$status" ] && cmp -s out "$output" && [ "$(cat err)" = "$complaint" ] && well=yes
    report "$name" $well
}

# check NAME COMMAND..: the command ends with status 0.
check() {
    local name=$1
    shift
    if "$@" >said 2>&1; then
        count yes "$name"
    else
        count no "$name"
        tail -n 20 said
    fi
}

# not_run N WHY NAME: so many checks, which have this name in common, are not run.
not_run() {
    left_out=$((left_out + $1))
    left_names="$left_names${left_names:+; }$3 ($([ "$1" = 1 ] || echo "$1, ")$2)"
}

# has TOOL: the tool is here.
has() {
    command -v "$1" >/dev/null
}

# finish: says what was counted, and removes the folder.
finish() {
    local status=$?
    trap - EXIT
    # Nothing goes on that the script has left behind.
    jobs -rp | xargs -r kill 2>/dev/null
    cd / && chmod -R u+rwX "$room" 2>/dev/null
    rm -rf "$room"
    local missing=$((${wanted_checks:-0} - passed - failed - left_out))
    if [ -z "$wanted_checks" ] || [ $missing != 0 ]; then
        [ $missing -gt 0 ] || missing=1
        failed=$((failed + missing))
        echo "FAILED: ${0##*/} has ${wanted_checks:-no} checks, by its word; it ended with status $status after another number"
    fi
    last_lines
    [ $failed = 0 ] && exit 0
    exit 1
}

# last_lines: what was counted.
last_lines() {
    echo "$left_out not run${left_names:+: $left_names}"
    echo "$passed passed, $failed failed"
}

# as_user COMMAND..: by a user whom permission stops.
as_user() {
    if [ "$(id -u)" = 0 ]; then
        setpriv --reuid=65534 --regid=65534 --clear-groups "$@"
    else
        "$@"
    fi
}

# has_user: there is one.
has_user() {
    [ "$(id -u)" != 0 ] || has setpriv
}

# within SECONDS COMMAND..: the command succeeds in that time; it is tried until then.
within() {
    local limit=$((${EPOCHREALTIME/[.,]/} + $1 * 1000000))
    shift
    until "$@"; do
        [ ${EPOCHREALTIME/[.,]/} -lt $limit ] || return 1
        sleep 0.02
    done
}

# sleeps PROCESS: its first thread sleeps for a time: a program that only waits while others watch has begun to.
sleeps() {
    local call=
    read -r call _ 2>/dev/null <"/proc/$1/syscall" && [[ $call = 35 || $call = 230 ]]
}

# is_gone PROCESS: it has ended.
is_gone() {
    ! kill -0 "$1" 2>/dev/null
}

# side_by_side SECONDS SCRIPT..: runs scripts of checks, as many at a time as there are processors, each at most so
# many seconds, and prints what each said, in this order, but for its last lines, which are counted. A script is a path
# from the top, and a word after a blank.
side_by_side() {
    local limit=$1 said script lanes number=0
    shift
    said=$(mktemp -d) || return 1
    lanes=$(nproc)
    for script in "$@"; do
        number=$((number + 1))
        while [ "$(jobs -rp | wc -l)" -ge "$lanes" ]; do wait -n; done
        {
            SECONDS=0
            trap 'kill $running' TERM
            cd "$top" || exit
            # shellcheck disable=SC2086
            timeout -k 10 "$limit" bash $script >"$said/$number" 2>&1 </dev/null &
            running=$!
            wait $running
            echo "$? $SECONDS" >"$said/$number.status"
        } &
    done
    wait
    number=0
    for script in "$@"; do
        number=$((number + 1))
        take "$script" "$said/$number" "$(cat "$said/$number.status")"
    done
    rm -rf "$said"
}

# take NAME FILE STATUS: counts what a script of checks said, and prints it.
take() {
    local passes fails omits omitted well=yes
    read -r passes fails < <(tail -n 1 "$2" | sed -n 's/^\([0-9]\{1,\}\) passed, \([0-9]\{1,\}\) failed$/\1 \2/p')
    omits=$(tail -n 2 "$2" | sed -n '1s/^\([0-9]\{1,\}\) not run\(: .*\)\{0,1\}$/\1/p')
    omitted=$(tail -n 2 "$2" | sed -n '1s/^[0-9]\{1,\} not run: //p')
    if [ -z "$passes" ] || [ -z "$omits" ]; then
        # It was ended, or wasn't one.
        cat "$2"
        passes=0 fails=1 omits=0
        echo "FAILED: $1 ended without its last lines, with status ${3%% *}"
    else
        head -n -2 "$2"
        # Nothing failed, and it says by its status that something did, or the other way round.
        [ $((fails > 0)) = $((${3%% *} > 0)) ] || { fails=$((fails + 1)) && echo "FAILED: $1: its status is ${3%% *}"; }
    fi
    echo "$1: $passes passed, $fails failed, $omits not run, ${3#* } s"
    passed=$((passed + passes))
    failed=$((failed + fails))
    left_out=$((left_out + omits))
    left_names="$left_names${left_names:+${omitted:+; }}$omitted"
}
