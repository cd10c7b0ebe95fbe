#!/usr/bin/env bash
# check_c.sh: builds the C library over what the gate left, or takes that of the folder NDF_LIBRARY, and its users in C, C++,
# Rust and Python, and runs them. What has no compiler here is not run, which is counted.
. "$(dirname "$0")/checks.sh" || exit 1
expects 31
sanitizers='-g -fsanitize=address,undefined -fno-sanitize-recover=all'
warnings='-Wall -Wextra -Werror'

# played FILE: the paths of a reader who plays the lines of a journal.
played() {
    awk -F '\t' '
        /^Create/ { paths[$2] }
        /^Remove/ { for (p in paths) if (p == $2 || index(p, $2 "/") == 1) delete paths[p] }
        /^Modify\(Name\(Both/ {
            split("", moved)
            for (p in paths) if (p == $2 || index(p, $2 "/") == 1) moved[p]
            for (p in moved) { delete paths[p]; paths[$3 substr(p, length($2) + 1)] }
        }
        END { for (p in paths) print p }' "$1" | LC_ALL=C sort
}

# churn FOLDER SEED: some changes, also renames of files and folders.
churn() {
    local n a b
    RANDOM=$2
    for n in $(seq 60); do
        a=$1/d$((RANDOM % 3))
        b=$1/d$((RANDOM % 3))
        case $((RANDOM % 8)) in
        0 | 1) mkdir -p "$a/e" && : >"$a/e/f$((RANDOM % 4))" ;;
        2 | 3) [ ! -d "$a" ] || echo "$n" >"$a/g$((RANDOM % 4))" ;;
        4) rm -rf "$a/e" ;;
        5) [ ! -d "$a/e" ] || [ ! -d "$b" ] || mv -T "$a/e" "$b/h$((RANDOM % 2))" ;;
        6) [ ! -e "$a/g1" ] || [ ! -d "$b" ] || mv -T "$a/g1" "$b/i$((RANDOM % 2))" ;;
        7) [ ! -d "$a" ] || mv -T "$a" "$1/j$((RANDOM % 3))" ;;
        esac 2>/dev/null
        [ $((n % 7)) != 0 ] || sleep 0.02
    done
    return 0
}

# watches COMMAND..: the command watches the folder tree, with its journal in the file of that name, until `ends`.
watches() {
    rm -rf tree held && mkdir tree && mkfifo held && : >watching
    "$@" tree >journal 2>watching <held &
    journal=$!
    exec 3<>held
    within 60 said_or_gone && ! is_gone $journal
}

said_or_gone() {
    grep -q watching watching || is_gone $journal
}

# ends: its input ends, and it ends with status 0, which the sanitizers let it only if they found nothing.
ends() {
    exec 3>&-
    timeout 60 tail --pid=$journal -f /dev/null || kill $journal
    wait $journal || { echo "status $?" && cat watching && return 1; }
}

# follows COMMAND..: a journal of a folder that changes, by which a reader has its paths at the end; three times, or
# as CHURNS says.
follows() {
    local turn
    for turn in $(seq "${CHURNS:-3}"); do
        watches "$@" && churn tree "$turn" && sleep 0.2
        ends || return 1
        find tree -mindepth 1 | LC_ALL=C sort >there
        played journal | cmp - there || { diff <(played journal) there; return 1; }
    done
}

# tells LINES COMMAND..: these lines are what is printed of a file that is made, written, renamed and removed.
tells() {
    local lines=$1
    shift
    if watches "$@"; then
        mkdir tree/notes
        sleep 0.3
        echo text >"tree/notes/a	b.txt"
        sleep 0.3
        mv "tree/notes/a	b.txt" tree/c.txt
        sleep 0.3
        rm -r tree/notes
    fi
    ends && diff journal - <<<"$lines"
}

# follows_overflow COMMAND..: inotify's queue runs over in a tree of 17,000 folders. The watch ends all the same, and a reader of
# what it prints has the paths.
follows_overflow() {
    rm -rf tree held && mkdir tree && mkfifo held && : >watching
    (cd tree && seq 17000 | xargs mkdir)
    "$@" tree >journal 2>watching <held &
    journal=$!
    exec 3<>held
    within 60 said_or_gone && ! is_gone $journal || return 1
    kill -STOP $journal
    (cd tree && seq -f 1/f%.0f 10000 | xargs touch && seq -f 2/f%.0f 10000 | xargs touch && seq 9000 17000 | xargs rmdir)
    kill -CONT $journal
    within 120 says_another && sleep 1
    ends || return 1
    find tree -mindepth 1 | LC_ALL=C sort >there
    played journal | cmp - there
}

# says_another: a further file is made, and the journal names one that was made so. What is made while the queue is full isn't told.
says_another() {
    : >"$(mktemp tree/further.XXXXXX)"
    grep -q 'tree/further' journal
}

# says_limit COMMAND..: of more folders than the system watches the command says so, and what else it watches it prints.
says_limit() {
    rm -rf tree && mkdir tree && (cd tree && seq 50 | xargs mkdir) && : >watching
    (within 30 grep -q 'watching tree' watching && touch tree/new) &
    unshare -Ur sh -c 'echo 20 >/proc/sys/user/max_inotify_watches && exec "$@"' sh "$@" tree >journal 2>watching
    [ $? = 1 ] && grep -q 'cannot watch tree/[0-9]*: no watch is left' watching && grep -q '31 folders are not watched' watching &&
        grep -qx 'Create(File)	tree/new' journal || { cat watching; return 1; }
}

# says_all PATH..: the journal names each of them.
says_all() {
    local path
    for path in "$@"; do grep -q "$path\$" journal || return 1; done
}

# keeps COMMAND..: for who may not open it, what is in a closed folder, or in one whose names alone can be read, isn't removed
# when the folder above is listed again; and once they are open, both are watched as before.
keeps() {
    local status
    if watches "$@" && mkdir -p tree/d/closed tree/d/listed && : >tree/d/closed/a && : >tree/d/listed/a &&
        within 30 says_all closed/a listed/a; then
        kill -STOP $journal
        chmod 0 tree/d/closed && chmod 444 tree/d/listed && mv tree/d tree/e && mv tree/e tree/d
        kill -CONT $journal
        sleep 0.3
        chmod 755 tree/d/closed tree/d/listed
        sleep 0.3
        : >tree/d/closed/b && : >tree/d/listed/b
        within 30 says_all closed/b listed/b
    fi
    ends >ended
    status=$?
    grep '^[CR]' journal | LC_ALL=C sort >said_there
    { [ $status = 0 ] || grep -q '^watch: 1 folders are not watched' ended; } && diff said_there - <<'EOF'
Create(File)	tree/d/closed/a
Create(File)	tree/d/closed/b
Create(File)	tree/d/listed/a
Create(File)	tree/d/listed/b
Create(Folder)	tree/d
Create(Folder)	tree/d/closed
Create(Folder)	tree/d/listed
EOF
}

same_layout() {
    cmp layout.records "$1" || { diff layout.records "$1"; return 1; }
}

if [ "$NDF_LIBRARY" ]; then
    check 'the library is built' within 900 is_made "$NDF_LIBRARY"
    cp "$NDF_LIBRARY"/lib* .
else
    check 'the library is built' "$top/scripts/c_library" "$room"
fi
if [ ! -e libdebounce_c.a ]; then
    echo 'FAILED: without the library nothing of it is run'
    exit 1
fi
# The records as the proved crate has them: a field lies at the next multiple of its size, as C has it.
awk '
    function flush() { if (name != "") { end = int((at + most - 1) / most) * most; print name, end; printf "%s", fields } }
    BEGIN { size["u32"] = 4; size["u64"] = 8; size["usize"] = 8; size["bool"] = 1; size["at"] = 8 }
    /^pub struct/ { flush(); name = $3; at = 0; most = 1; fields = "" }
    /^    pub [a-z_]+: [a-z0-9]+,$/ {
        field = $2; sub(":", "", field); type = $3; sub(",", "", type); s = size[type]
        at = int((at + s - 1) / s) * s
        fields = fields name "." field " " at " " s "\n"; at += s; if (s > most) most = s
    }
    END { flush() }' "$top/crates/debounce_c/src/desk/records.rt" >layout.records
# The handle is a bool and an address.
printf 'Handle 16\nHandle.full 0 1\nHandle.at 8 8\n' | cat - layout.records >layout.all && mv layout.all layout.records

# Root opens what is closed, unless it may not.
bound=
[ "$(id -u)" != 0 ] || bound='setpriv --bounding-set=-dac_override,-dac_read_search'
has ${bound:-true} || bound=none

if has gcc; then
    check 'the records lie in C as in the library' sh -c "gcc -I'$top/c' '$top/c/test/layout.c' -o layout && ./layout >layout.c"
    check 'the records of C are those of the library' same_layout layout.c
    check 'each request for memory is refused in turn' sh -c "gcc -std=c11 $warnings $sanitizers -I'$top/c' \
        '$top/c/test/refusals.c' libdebounce_c.a -o refusals && ./refusals"
    cat said
    check 'random calls, right and wrong' sh -c "gcc -std=gnu11 -O1 $warnings $sanitizers -I'$top/c' \
        '$top/c/test/random.c' libdebounce_c.a -o random && ./random 1 100000 && ./random 2 100000"
    cat said
    check 'random looks, and a reader of what is told' sh -c "gcc -std=gnu11 -O1 $warnings $sanitizers -I'$top/c' \
        '$top/c/test/looks.c' libdebounce_c.a -o looks && ./looks 1 100000 && ./looks 2 100000"
    cat said
    { printf '#include "%s"\n' ndf.h ndf_words.h errno.h stdio.h string.h sys/stat.h
      echo 'int main(void) { uint64_t now = 0; const char *path = "/w/a";'
      sed -n '/^```c$/,/^```$/p' "$top/docs/C.md" | sed '/^```/d'
      echo '}'; } >page.c
    check 'the calls on the page' sh -c "gcc -std=gnu11 $warnings $sanitizers -I'$top/c' page.c libndf.a -o page && ./page"
    check 'what is installed is enough, and names no folder of ours' "$top/c/test/install.sh" .
    # shellcheck disable=SC2086
    check 'watch.c is built' gcc -std=gnu11 -O2 $warnings $sanitizers -I"$top/c" "$top/c/watch.c" libndf.a -o watch
    check 'watch.c prints what happens' tells "$(printf '%s\n' 'Create(Folder)	tree/notes' \
        'Create(File)	tree/notes/a\tb.txt' 'Remove(File)	tree/notes/a\tb.txt' 'Create(File)	tree/c.txt' \
        'Remove(Folder)	tree/notes')" ./watch --timeout 40 --until-eof
    check 'watch.c joins renames' tells "$(printf '%s\n' 'Create(Folder)	tree/notes' \
        'Create(File)	tree/notes/a\tb.txt' 'Modify(Name(Both))	tree/notes/a\tb.txt	tree/c.txt' \
        'Remove(Folder)	tree/notes')" ./watch --timeout 40 --until-eof --renames
    check 'a reader of watch.c has the paths of the folder' follows ./watch --timeout 30 --until-eof
    check 'a reader of watch.c has them after an overflow' follows_overflow ./watch --timeout 30 --initial --until-eof
    if unshare -Ur sh -c 'echo 20 >/proc/sys/user/max_inotify_watches' 2>/dev/null; then
        check 'watch.c says that no watch is left' says_limit ./watch --timeout 30 --seconds 4
    else
        not_run 1 'no namespace of users' 'the limit of watches'
    fi
    if [ "$bound" != none ]; then
        check 'what watch.c may not open stays' keeps $bound ./watch --timeout 40 --until-eof
    else
        not_run 1 'no setpriv' 'what watch.c may not open'
    fi
else
    not_run 14 'no gcc' 'users in C'
fi
if has g++; then
    check 'the class of C++' sh -c "g++ -std=c++17 $warnings $sanitizers -I'$top/c' -c '$top/c/test/wrapper.cpp' -o wrapper.o &&
        g++ $sanitizers wrapper.o libndf.a -o wrapper && ./wrapper"
else
    not_run 1 'no g++' 'the class of C++'
fi
if has python3; then
    export NDF_SO=$room/libndf.so PYTHONPATH=$top/python PYTHONDONTWRITEBYTECODE=1
    program=$(program mirror)
    [ -x "$program" ] || program=-
    check 'the worked cases through the library' python3 "$top/python/play.py" --cases "$program" \
        "$top/crates/worked_cases/data/CASES.md" "$top/crates/worked_cases/data/STORIES.md"
    cat said
    if [ "$program" != - ]; then
        check 'random scripts through the library' python3 "$top/python/play.py" --random "$program" 1 300
        cat said
    else
        not_run 1 "mirror isn't built" 'random scripts through the library'
    fi
    if [ -x watch ]; then
        check 'after each two operations a reader of watch.c has what stands there' python3 "$top/c/test/pairs.py" \
            ./watch --timeout 300 --until-eof
        cat said
    else
        not_run 1 'no gcc' 'the pairs of operations of watch.c'
    fi
    check 'after each two operations a reader of watch.py has what stands there' python3 "$top/c/test/pairs.py" \
        python3 "$top/python/examples/watch.py" --timeout 300 --until-eof
    cat said
    if [ "$bound" != none ]; then
        check 'what watch.py may not open stays' keeps $bound python3 "$top/python/examples/watch.py" --timeout 40 --until-eof
    else
        not_run 1 'no setpriv' 'what watch.py may not open'
    fi
    check 'the class of Python' python3 "$top/python/tests/test_ndf.py"
    check 'file numbers as the Rust crate has them' python3 "$top/python/tests/test_numbers.py"
    check 'the records lie in Python as in the library' sh -c "python3 '$top/python/tests/layout.py' >layout.python"
    check 'the records of Python are those of the library' same_layout layout.python
else
    not_run 9 'no python3' 'users in Python'
fi
if has cargo; then
    export NDF_LIB=$room CARGO_TARGET_DIR=$room/target
    check 'the crate of Rust' cargo test --offline --quiet --manifest-path "$top/rust/ndf/Cargo.toml"
    grep -a '^not run' said
    check 'the programs of Rust' cargo build --offline --quiet --release --manifest-path "$top/rust/ndf/Cargo.toml" \
        --examples
    check 'the records lie in Rust as in the library' sh -c 'target/release/examples/layout >layout.rust'
    check 'the records of Rust are those of the library' same_layout layout.rust
    check 'a reader of the Rust watch has the paths of the folder' follows target/release/examples/watch --timeout 30 \
        --until-eof
    if has python3; then
        check 'after each two operations a reader of the Rust watch has what stands there' python3 "$top/c/test/pairs.py" \
            target/release/examples/watch --timeout 300 --until-eof
        cat said
    else
        not_run 1 'no python3' 'the pairs of operations of the Rust watch'
    fi
else
    not_run 6 'no cargo' 'users in Rust'
fi
