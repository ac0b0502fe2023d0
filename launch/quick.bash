# shellcheck shell=bash disable=SC2034,SC2154,SC2030,SC2031 # the parts set variables for one another
# A quick build of the sources, of which nothing is proved. To be read after programs.bash, keep.bash and sources.bash.

# build_program NAME: builds the program, and sets program and what. Says what stands in the way, and ends then.
build_program() {
    [ -z "$why" ] || say "$why"
    if ! command -v rt >/dev/null; then
        [ -n "$why" ] || say "no program is built of these sources, and there is no command rt to build one:" \
            "put the toolchain's bin on the PATH"
        return 70
    fi
    say "building the quick program, which is not proved; this takes about a minute"
    if ! build_quick "$1" || ! find_program "$1"; then
        say "the quick program could not be built"
        return 70
    fi
}

# build_quick NAME. The command rt try compiles a program without its proof, runs it once, and throws it away. While it
# compiles, the whole program stands in its folder as a module of LLVM, of which the toolchain's own clang makes a program.
# Where that can not be had, the program that rt try makes is taken, which is a hundred times slower.
build_quick() (
    room=$(mktemp -d) || exit
    quick=$root/out/quick/$1
    trap 'rm -rf -- "$room"' EXIT
    sum=$(sources_sum)
    mkfifo -- "$room/pipe" || exit
    (
        cd -- "$root/crates/$1" || exit
        # shellcheck disable=SC2046 # the words are parted at blanks
        TMPDIR=$room exec rt try --steps 1 -- $(words_on_pipe "$1" "$room/pipe")
    ) >"$room/said" 2>&1 </dev/null &
    try=$!
    if keep_module "$room" "$try" && link_module "$room"; then
        put_program "$room/linked" "$quick" "$sum"
        kill "$try" 2>/dev/null
    else
        take_slow "$room" "$try"
    fi
    wait "$try" 2>/dev/null
    sources=$sum
    is_current "$quick" && exit
    sed 's/^/dokyreva: rt: /' -- "$room/said" >&2
    exit 1
)

# words_on_pipe NAME PIPE: words with which a program reads a pipe.
words_on_pipe() {
    case $1 in
    judge_prog) echo "formula $2 /dev/null 0" ;;
    search_prog) echo "search $2 /dev/null" ;;
    *) echo "plan $2 /dev/null --max-horizon 0" ;;
    esac
}

# keep_module FOLDER PROCESS: keeps the module that rt try compiles, once it is whole: its object is begun after it. Some toolchains
# compile a module of some hundred bytes before it, which is no program.
keep_module() {
    local module size
    while kill -0 "$2" 2>/dev/null; do
        for module in "$1"/*/*/module.bc; do
            size=$(stat -c %s -- "$module" 2>/dev/null)
            if [ "${size:-0}" -gt 100000 ] && compgen -G "${module%/*}/*.o*" >/dev/null; then
                ln -- "$module" "$1/module.bc" 2>/dev/null || cp -- "$module" "$1/module.bc"
                return
            fi
        done
        sleep 0.1
    done
    return 1
}

# link_module FOLDER: makes a program of the module that was kept, by the toolchain's own tools.
link_module() {
    local kit
    kit=$(dirname -- "$(rt doc 2>/dev/null)") || return
    [ -x "$kit/toolchain/bin/clang" ] && [ -x "$kit/bin/rattle-link" ] || return
    "$kit/toolchain/bin/clang" --target=x86_64-unknown-linux-gnu -O1 -c -o "$1/module.o" "$1/module.bc" >>"$1/said" 2>&1 &&
        "$kit/bin/rattle-link" --target x86_64-unknown-linux-gnu --toolchain "$kit/toolchain" -o "$1/linked" "$1/module.o" \
            "$kit/c/asan.a" "$kit/c/libos_c.a" "$kit/c/liblibc_c.a" >>"$1/said" 2>&1
}

# take_slow FOLDER PROCESS: takes the program that rt try runs. It is run on a pipe in place of the domain; a planner that waits
# at the pipe is whole and can be copied. Where rt try ends without a planner, another reader waits there in its place.
take_slow() {
    local waits made
    (
        while kill -0 "$2" 2>/dev/null; do sleep 0.2; done
        exec cat -- "$1/pipe" >/dev/null
    ) &
    waits=$!
    exec 3>"$1/pipe"
    for made in "$1"/*/*/program; do
        put_program "$made" "$quick" "$sum"
    done
    exec 3>&-
    kill "$waits" 2>/dev/null
    wait "$waits" 2>/dev/null
}
