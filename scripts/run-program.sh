# run-program.sh: what the commands share. A script that sources it has set `name`, its own name, and `here`, the
# repository's folder, and calls
#   fail WORDS                    says why there is no answer, and exits with 2
#   version                       prints the project's version and the toolchain's identity
#   read_from FILE                has FILE as standard input; `-` or nothing is standard input as it is
#   build PROGRAM                 has a program proved and built, as target/bin/PROGRAM, unless it is built and no crate
#                                 has changed
#   start_program PROGRAM WORDS   runs it
#   run_program PROGRAM WORDS     runs it, and exits with the status that it tells, a digit whose number is its exit status:
#                                 48, 49 or 50; with 2 where it tells none
#   archive CRATE                 has the static library of a crate proved and built, as target/staticlib/libCRATE.a: that
#                                 of CRATE_c where there is such a crate, which exports the calls of the library CRATE
# Without the toolchain in PATH a program that is built still runs: target/PROGRAM.built says where its C library is.

fail() { printf '%s: %s\n' "$name" "$*" >&2; exit 2; }

# the toolchain's folder, from rt itself; nothing where rt is not in PATH
kit_of_rt() {
    rt=$(command -v rt) || return 0
    printf '%s\n' "${RATTLE_HOME:-$(cd "$(dirname "$(readlink -f "$rt")")/.." && pwd -P)}"
}

version() {
    printf '%s %s\n' "$name" "$(cat "$here/VERSION")"
    if command -v rt >/dev/null; then rt version; else echo 'the Rattle toolchain is not in PATH'; fi
}

read_from() {
    case ${1--} in
    -) [ ! -t 0 ] || echo "$name: reads a record from standard input, which is a terminal; --help says more" >&2 ;;
    *)
        [ -e "$1" ] || fail "there is no file $1"
        [ ! -d "$1" ] || fail "$1 is a folder"
        [ -r "$1" ] || fail "$1 cannot be read"
        exec <"$1"
        ;;
    esac
}

# whether a program is built and no crate has changed since; what the toolchain makes in out/ is no part of a crate
is_built() {
    [ -x "$here/target/bin/$1" ] && [ -f "$here/target/$1.built" ] || return 1
    [ -z "$(find "$here/crates" "$here/crates.txt" -name out -prune -o -newer "$here/target/$1.built" -type f -print | head -n 1)" ]
}

build() {
    ! is_built "$1" || return 0
    kit=$(kit_of_rt)
    [ -n "$kit" ] || fail "the program $1 is not built, and the Rattle toolchain is not there: no rt in PATH"
    printf '%s: proving and building the program %s; the first time this takes a few minutes ..\n' "$name" "$1" >&2
    mkdir -p "$here/target/bin"
    # its folder is written as the build begins: a crate that changes meanwhile is newer
    printf '%s\n' "$kit/toolchain" >"$here/target/$1.built.new"
    # rt builds a program to run it: here once, on no byte, where each program ends with 0
    rm -f "$here/crates/$1/out/$1"
    last=$(cd "$here/crates/$1" && { rt run </dev/null 2>&1 && echo 'rt has run it' || echo 'rt has not'; } | said_by_rt "$here/target/$1.log")
    if [ "$last" != 'rt has run it' ] || [ ! -x "$here/crates/$1/out/$1" ]; then
        fail "the program $1 is not proved: target/$1.log says why"
    fi
    cp "$here/crates/$1/out/$1" "$here/target/bin/$1"
    mv "$here/target/$1.built.new" "$here/target/$1.built"
}

archive() {
    [ -d "$here/crates/$1_c" ] && of=$1_c || of=$1
    mkdir -p "$here/target/staticlib"
    (cd "$here/crates/$of" && rt lib) >"$here/target/staticlib/$1.log" 2>&1 || { tail -n 20 "$here/target/staticlib/$1.log" >&2; return 1; }
    cp "$here/crates/$of/out/lib$of.a" "$here/target/staticlib/lib$1.a"
}

# the lines of rt as they come, to the file and, those of its own, to standard error; at the end the last one
said_by_rt() {
    said=
    : >"$1"
    while IFS= read -r line; do
        printf '%s\n' "$line" >>"$1"
        case $line in 'rt: '*) printf '  %s\n' "${line#rt: }" >&2 ;; esac
        said=$line
    done
    printf '%s\n' "$said"
}

# with the toolchain's own C library; a program of the toolchain is for x86-64, and where a toolchain has an emulator beside
# its compiler, for another processor, by that
start_program() {
    tools=$(cat "$here/target/$1.built")
    program=$here/target/bin/$1
    shift
    set -- "$tools/lib/ld-linux-x86-64.so.2" --library-path "$tools/lib" "$program" "$@"
    [ -x "$1" ] || fail "the toolchain that built the program is gone: there is no $1"
    if [ -x "$tools/bin/qemu-x86_64" ]; then set -- "$tools/bin/qemu-x86_64" "$@"; fi
    "$@"
}

run_program() {
    ended=0
    start_program "$@" || ended=$?
    case $ended in
    48 | 49 | 50) exit $((ended - 48)) ;;
    # it was said already why there is none
    2) exit 2 ;;
    esac
    fail "the program $1 broke off, with status $ended"
}
