# For the commands at the root, bench/run and those of tests/, which source it after they have set `root`. POSIX sh; needs rt on
# PATH. Where the system has them, `flock` keeps two commands that start at once from proving in each other's way, and `setsid` lets
# an interrupted one end all that it began.

say() { printf '%s: %s\n' "$name" "$*" >&2; }

# The crates that one needs, itself the last, in the order in which rt proves them.
needs() {
    awk -v wanted="$1" '
        function visit(crate,    needed, count, k) {
            if (crate in visited) return
            visited[crate]
            count = split(needs[crate], needed, " ")
            for (k = 1; k <= count; k++) if (needed[k] in needs) visit(needed[k])
            print crate
        }
        { sub(/#.*/, "") }
        /:/ { split($0, words, /[: \t]+/); needs[words[1]] = substr($0, index($0, ":") + 1) }
        END { visit(wanted) }' "$root/crates.txt"
}

# Every second: the first crate that is not proved. rt takes a crate's stamp away before it proves it, and gives it one after; the
# crate NAME itself, which is the last, has one if it is a program. Nothing that this starts may hold the command's own output open.
report() {
    crates=$(needs "$name") told=''
    count=$(printf '%s\n' "$crates" | wc -l)
    while sleep 1 2>/dev/null; do
        number=0
        for crate in $crates; do
            number=$((number + 1)) stamp=$root/crates/$crate/out/rlib/stamp
            [ "$crate" != "$name" ] || stamp=$made
            if [ ! -f "$stamp" ]; then
                [ -n "$told" ] || say "not built yet; it is proved first, which takes some minutes (log: $log)"
                [ "$told" = "$crate" ] || say "proving $number of $((count)): $crate"
                told=$crate
                break
            fi
        done
    done
}

# What a static library was made from, and what it is. rt makes one anew whenever it is asked, so it is asked where this has changed.
sums() {
    rt version
    (
        cd "$root/crates" || exit
        cksum ../crates.txt "$name/out/lib$name.a"
        for crate in $(needs "$name"); do find "$crate/src" "$crate/specs" "$crate/proofs" -type f -exec cksum {} + | sort; done
    ) 2>/dev/null
}

# A signal ends rt and all that it began, as rt's own provers would go on after an interrupt.
ended() { # SIGNAL
    trap - HUP INT TERM
    [ -z "$reporter" ] || kill "$reporter" 2>/dev/null || true
    [ -z "$prover" ] || kill -s TERM -- "-$prover" 2>/dev/null || kill -s TERM "$prover" 2>/dev/null || true
    [ -z "$prover" ] || wait "$prover" 2>/dev/null || true
    say 'interrupted; what is proved so far stays proved'
    kill -s "$1" $$
}

# Runs `rt WORD` for the crate NAME, quietly but for what is being proved; ends the command where rt fails. `rt run` proves and builds
# a program and then runs it, on no input here; `rt lib` proves and builds a static library.
prove() { # NAME WORD
    name=$1 log=$root/out/$1.log status=0
    made=$root/crates/$1/out/$1.stamp
    [ "$2" = run ] || made=$root/crates/$1/out/lib$1.a
    command -v rt >/dev/null || { say 'needs rt, the command of the Rattle kit, on PATH'; exit 127; }
    mkdir -p "$root/out"
    exec 8>"$root/out/start.lock"
    if command -v flock >/dev/null; then
        flock -w 5 8 || { say 'another command is proving; waiting for it'; flock 8; }
    fi
    if [ "$2" = lib ]; then
        [ ! -f "$made" ] || [ "$(sums)" != "$(cat "$root/out/$name.sums" 2>/dev/null)" ] || { exec 8>&-; return; }
        rm -f "$made" "$root/out/$name.sums"
    fi
    reporter='' prover=''
    for signal in HUP INT TERM; do
        # shellcheck disable=SC2064
        trap "ended $signal" "$signal"
    done
    report >/dev/null 8>&- &
    reporter=$!
    # shellcheck disable=SC2046
    (cd "$root/crates/$name" && exec $(command -v setsid) rt "$2") >"$log" 2>&1 </dev/null &
    prover=$!
    wait "$prover" || status=$?
    trap - HUP INT TERM
    kill "$reporter" 2>/dev/null || true
    wait "$reporter" 2>/dev/null || true
    # Of a program that has been run the status is its own.
    [ "$2" = lib ] || ! grep -q '^rt: running ' "$log" || status=0
    [ "$2" = run ] || [ "$status" -ne 0 ] || sums >"$root/out/$name.sums"
    exec 8>&-
    [ "$status" -eq 0 ] || {
        grep -e '^rt: ' -e ': error: ' -e ': no proof' "$log" | grep -v -e ': begins with ' -e '^rt: chose ' >&2 || true
        say "not proved, so nothing is run; the log is $log"
        exit "$status"
    }
}

# Proves and builds the program NAME, if that is not done yet, and becomes it.
start() { # NAME WORDS..
    prove "$1" run
    program=$root/crates/$1/out/$1
    shift
    exec "$program" "$@"
}
