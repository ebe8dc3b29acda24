#!/usr/bin/env bash
# Builds the program, makes three small images in the folder demo/, lists their root directories and resolves two paths.
# Which crate is being proved is told on standard error.
set -eu
top=$(cd "$(dirname "$0")" && pwd)
mkdir -p "$top/demo"

# The crates to build, each behind those that it stands on.
crates=()
add() {
    local crate
    for crate in $(sed -n "s/^$1://p" "$top/crates.txt"); do
        [ ! -d "$top/crates/$crate" ] || add "$crate"
    done
    case " ${crates[*]} " in
        *" $1 "*) ;;
        *) crates+=("$1") ;;
    esac
}

# show_state TEXT LOG: shows in a line of the terminal how many functions of a crate are proved, and after how many seconds.
show_state() {
    local functions
    functions=$(sed -n 's/^so far: \([0-9]* of [0-9]* functions\).*/, \1/p' "$2" | tail -n 1)
    printf '\r%s%s, %d s' "$1" "$functions" "$SECONDS" >&2
}

ticker=
stop_ticker() {
    [ -n "$ticker" ] || return 0
    kill "$ticker"
    wait "$ticker" || true
    ticker=
}
trap stop_ticker EXIT

start_ticker() {
    while kill -0 $$ 2>/dev/null; do
        show_state "$@"
        sleep 1
    done &
    ticker=$!
}

# prove COMMAND CRATE: proves and builds a crate by a command of rt.
place=0
prove() {
    place=$((place + 1))
    local what="proving $2, crate $place of ${#crates[@]}" log=$top/demo/build-$2.log status=0
    SECONDS=0
    : >"$log"
    if [ -t 2 ]; then start_ticker "$what" "$log"; else echo "$what" >&2; fi
    (cd "$top/crates/$2" && rt "$1") >"$log" 2>&1 || status=$?
    if [ -t 2 ]; then stop_ticker; show_state "$what" "$log"; echo >&2; fi
    # A program that was built is also run, and ends with its own status.
    [ "$status" = 0 ] || grep -q "^rt: running out/$2" "$log" || { tail "$log" >&2; exit 1; }
}

add xn_demo
add xfsns
echo "${#crates[@]} crates are proved and built: up to half an hour from nothing, else only what has changed" >&2
for crate in "${crates[@]}"; do
    if [ -f "$top/crates/$crate/src/main.rt" ]; then prove run "$crate"; else prove lib "$crate"; fi
done
# `rt run` has run the program that makes images in its own folder too.
rm -f "$top/crates/xn_demo/"*.img "$top/crates/xn_demo/"*.manifest
cd "$top/demo"
"$top/crates/xn_demo/out/xn_demo"

# Shows a command, and what it tells.
show() {
    echo "\$ xfsns $*"
    "$top/crates/xfsns/out/xfsns" "$@"
}

show list demo.img demo.manifest 128
show resolve demo.img demo.manifest '/caf\c3\a9/menu'
show list block.img block.manifest 128
show resolve block.img block.manifest /entry-0003
show list sample.img sample.manifest 128
show check sample.img sample.manifest
