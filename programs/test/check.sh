# What the checks of the programs share. A check reads it first, and is at the root of the repository then; `out` is a folder of its own,
# made anew.
unset CDPATH
folder=$(cd "$(dirname "$0")" && pwd)
name=${folder##*/}
test=$folder/test
root=${folder%/programs*}
out=$root/target/check/$name
build=target/check/$name/build
lib=target/staticlib/libtac.a
cc=${CC:-cc}
rm -rf "$out"
mkdir -p "$out/got" "$out/files"
# There are links among the files, and a crates.txt, which rt takes at the top of a checkout alone.
trap 'cd "$root" && rm -rf "$out/files"' EXIT
cd "$root"

# fail MESSAGE: ends the check; in a pipeline only a part of it, and `passed` ends it then.
fail() {
    echo "$0: $1" >&2
    : >"$out/failed"
    exit 1
}

# passed: the end of a check.
passed() {
    [ ! -e "$out/failed" ] || exit 1
    echo "$name: as stored"
}

# Flags for what is run: with sanitizers where there are any.
flags="-std=c11 -O1 -g"
sanitize="-fsanitize=address,undefined -fno-sanitize-recover=all"
echo 'int main(void) { return 0; }' >"$out/empty.c"
if $cc $sanitize -o "$out/empty" "$out/empty.c" 2>"$out/empty.log" && "$out/empty" 2>"$out/empty.log"; then flags="$flags $sanitize"; fi
export ASAN_OPTIONS=detect_leaks=0

# Before a command: ends it where it hangs, if the system has something for that.
bound=
if command -v timeout >/dev/null; then bound="timeout 60"; fi

# build_program: the program, in `program`.
build_program() {
    make -s -j2 CC="$cc" CFLAGS="$flags" out="$build" "$build/tac-$name"
    program=$root/$build/tac-$name
}

# build_test NAME: test/NAME.c, with the parts of the program but its main.
build_test() {
    $cc $flags -I include -I programs/common -I "programs/$name" -o "$out/$1" "$test/$1.c" \
        $(find "$build/programs" -name '*.o' ! -name main.o) "$lib"
}

# run STATUS [ARGUMENT...]: prints what the program prints, and tests its status.
run() {
    want=$1
    shift
    status=0
    $bound "$program" "$@" 2>&1 || status=$?
    [ "$status" -eq "$want" ] || fail "status $status, not $want: $*"
}

# compare NAME: standard input with the stored output.
compare() {
    cat >"$out/got/$1.txt"
    diff "$test/$1.txt" "$out/got/$1.txt" || fail "$1"
}

# commands NAME [ARGUMENT...]: the commands of test/NAME.in, their output with the stored one.
commands() {
    stored=$1
    shift
    run 0 "$@" <"$test/$stored.in" >"$out/got/$stored.out"
    compare "$stored" <"$out/got/$stored.out"
}

# bad [ARGUMENT...]: adds to bad.out what the program prints where it ends with status 2.
bad() {
    run 2 "$@" </dev/null >>bad.out
}

# pause SECONDS: also a part of one, where the system can.
pause() { sleep "$1" 2>/dev/null || sleep 2; }

# await WHAT COMMAND...: until the command succeeds. Where it takes a minute or more, what was begun, by its numbers in begun.id and
# begun.processes, is killed, and the check fails: WHAT.
await() {
    what=$1
    tries=600
    shift
    until "$@"; do
        tries=$((tries - 1))
        if [ $tries -eq 0 ]; then
            kill -KILL $(cat begun.id begun.processes 2>/dev/null) 2>/dev/null || :
            fail "$what"
        fi
        pause 0.1
    done
}

# limited: what is begun behind it ends after some minutes of processor time, also where the check was ended before, if the shell can do so.
limited() { ulimit -t 300 2>/dev/null || :; }

# has_terminal: whether there is something that gives a command a terminal: script, as Linux has it.
has_terminal() {
    command -v script >/dev/null && SHELL=/bin/sh script -qec true /dev/null </dev/null >/dev/null 2>&1 || {
        echo "$name: not tried on a terminal, there is no script"
        return 1
    }
}

# terminal COMMAND: the command, for sh, on a terminal, on which standard input is typed. What is shown there, and the command's status, is
# in terminal.txt. The shell around the command outlives Ctrl-C, and the terminal is kept until the status has come through it: script may
# lose what is shown last.
terminal() {
    rm -f begun.*
    {
        cat
        await "it does not end on a terminal: $1" grep -q 'status [0-9]' terminal.txt
        echo
    } | (
        limited
        SHELL=/bin/sh sh -c 'echo $$ >begun.id; exec script -qec "$1" /dev/null' sh "trap : INT; $1; echo status \$?; read end"
    ) >terminal.txt
}
