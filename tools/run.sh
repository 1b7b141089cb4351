# Runs the program `name` of the clone `root` with the arguments of the script at the root that sources this file, from any directory and through links.
# While there is no program, tools/unproved.py compiles and runs the sources, neither proved nor optimised. --prove before all others proves and builds first;
# without further arguments that is all. If a program exists and nothing has changed since the last check, it runs at once; otherwise build.py compares
# it with its sources, and proves and builds it if they differ. RT names the toolchain's command, if rt is not on the PATH.
program=$root/crates/$name/out/$name package=$root/python/src/mpsim version=$root/VERSION
. "$root/tools/answers.sh"
prove=
[ "${1-}" != --prove ] || { prove=yes && shift; }

if [ ! -x "$program" ] || ! . "$root/tools/looks.sh" | cmp -s - "$program.looks"; then
    if ! command -v python3 >/dev/null; then
        if [ ! -x "$program" ]; then
            echo "$name: there is no program yet, and it can't be built: python3 is not on the PATH (README.md, Install)" >&2
            exit 1
        fi
        echo "$name: this program may be older than its sources: python3, which compares them, is not on the PATH" >&2
    elif [ ! -x "$program" ] && [ ! "$prove" ]; then
        exec python3 "$root/tools/unproved.py" "$0" "$name" "$@"
    else
        # Ctrl-C is left to build.py, which reports in one line that it stops; while it starts it ignores it.
        trap : INT
        (trap '' INT && exec "$root/build.py" --needed "$name" </dev/null) || exit
        trap - INT
    fi
fi
[ ! "$prove" ] || [ $# != 0 ] || exit 0
. "$root/tools/memory.sh"
exec "$program" "$@"
