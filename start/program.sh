# What the starters pay and ask share, to be sourced with the project's folder in `root`: `ready PROGRAM` builds a program with its proofs where that is due, `start PROGRAM WORDS..` runs one.
# A build tells on standard error how far it is. Interrupted, it leaves no prover behind, and the next one goes on from there, since rt proves no crate twice. One build at a time: the others wait.
# The program is crates/PROGRAM/out/PROGRAM, as rt makes it. In target/: PROGRAM-built is as old as the start of the last build that ended well (or of a gate that passed: .ci/run),
# PROGRAM-begun as that of the present one; building is the lock, said is what rt said.
: "${root:?}"

trouble() { # SENTENCE
    echo "trouble: $1"
    exit 2
}

say() { echo "$program: $1" >&2; }

kit() { command -v rt >/dev/null || trouble 'there is no command rt; it comes with the Rattle kit, whose folder bin has to be in PATH'; }

# the program is as new as all that it is made of; what rt keeps lies in out/, whose coming and going the crate's own folder shows, and nothing else does
fresh() { # PROGRAM
    [ -x "$root/crates/$1/out/$1" ] && [ -f "$root/target/$1-built" ] && [ -z "$(cd "$root" && find crates crates.txt -name out -prune -o \( -path 'crates/*/*' -o -name crates.txt \) -newer "target/$1-built" -print | head -n 1)" ]
}

start() { # PROGRAM WORDS..
    file=$root/crates/$1/out/$1
    shift
    "$file" "$@"
}

ready() { # PROGRAM
    [ "$(uname -m)" = x86_64 ] || trouble 'the Rattle kit has programs for x86-64 alone, and this machine is another'
    if fresh "$1"; then return; fi
    program=$1 target=$root/target
    lock=$target/building log=$target/said me=$$.$(began $$)
    room=$(room_of "$me") since=$(date +%s) seen='' told=''
    kit
    mkdir -p "$target" 2>/dev/null
    [ -w "$target" ] || trouble "the program has to be built, and $target cannot be written"
    weights=$(weigh)
    trap 'stop INT' INT
    trap 'stop QUIT' QUIT
    trap 'stop TERM' TERM
    trap 'stop HUP' HUP
    if take_turn && ! fresh "$1"; then build; fi
    leave
    trap - INT QUIT TERM HUP
}

# ---- building

build() {
    since=$(date +%s) seen='' told=''
    say 'the program is built with its proofs; the first time takes some minutes'
    rm -f "$target/$program-built"
    if ! { touch "$target/$program-begun" && mkdir -m 711 "$room" && : >"$log"; }; then give_up; fi
    # rt run also runs what it built: no matter how that ends, here it has no input and asks for help at most.
    # Ctrl-C is for the starter, which then ends all of them; what they keep beside the tree goes with their folder
    # shellcheck disable=SC3045
    (trap '' INT QUIT && ulimit -c 0 && cd "$root/crates/$program" && exec env TMPDIR="$room" rt run -- help) >"$log" 2>&1 </dev/null &
    prover=$!
    watch >/dev/null &
    watcher=$!
    wait "$prover"
    kill -KILL "$watcher" 2>/dev/null
    wait "$watcher" 2>/dev/null
    if [ -t 2 ]; then wipe; else tell; fi
    if ! { built && [ -x "$root/crates/$program/out/$program" ]; }; then
        failure
        give_up
    fi
    mv "$target/$program-begun" "$target/$program-built"
}

give_up() {
    leave
    trouble 'the program could not be built'
}

# rt runs what it has built, and nothing else
built() { awk -v line="rt: running out/$program;" 'index($0, line) == 1 { found = 1 } END { exit !found }' "$log"; }

# the last lines, but for those that only count what was loaded: rt ends with the first crate that is not proved
failure() {
    awk '/^(logic |statements |library |crate |axioms |only=|rt: chose )/ { next } { line[++n] = $0 } END { for (i = n > 20 ? n - 19 : 1; i <= n; i++) print line[i] }' "$log" >&2
    say 'this is what failed; put it right and start again (target/said has it all)'
}

# tells how far it is while the starter is there, and ends the provers if that was killed outright
watch() {
    while [ -n "$(began $$)" ]; do
        tell
        sleep 1 2>/dev/null
    done
    end_all "$prover"
    leave
}

# interrupted: no prover goes on, and the terminal is as it was
stop() { # SIGNAL
    trap '' INT QUIT TERM HUP
    end_all $$
    wait 2>/dev/null
    wipe
    leave
    say 'interrupted; the next start goes on from here'
    trap - "$1"
    kill -s "$1" $$
}

# gives back what this starter holds
leave() {
    rm -rf "$room" "$lock-$me"
    if [ "$(readlink "$lock")" = "$me" ]; then rm -f "$target/$program-begun" "$lock"; fi
}

# ---- how far it is

# each crate that the program stands on, in the order that rt proves them in, and its weight: what every crate takes, and its code's bytes times the crates that it stands on.
# Time goes by these, hardly by the length of proofs
weigh() {
    cd "$root" && find crates -path 'crates/*/src/*' -type f -exec wc -c {} + | awk -v program="$program" '
        function under(top, crate,    names, n, i, sum) {
            if ((top, crate) in counted) return 0
            counted[top, crate] = 1
            sum = 1
            n = split(named[crate], names, " ")
            for (i = 1; i <= n; i++) if (names[i] in named) sum += under(top, names[i])
            return sum
        }
        function tell(crate,    names, n, i) {
            if (crate in is_told) return
            is_told[crate] = 1
            n = split(named[crate], names, " ")
            for (i = 1; i <= n; i++) if (names[i] in named) tell(names[i])
            print crate, 30000 + code[crate] * under(crate, crate)
        }
        NR == FNR { if (split($2, path, "/") > 1) code[path[2]] += $1; next }
        { sub(/#.*/, "") }
        i = index($0, ":") { name = substr($0, 1, i - 1); sub(/ .*/, "", name); named[name] = substr($0, i + 1) }
        END { tell(program) }' - crates.txt
}

# by what rt said so far: crates proved, crates in all, the weight of those that were proved now, the weight of those that are left.
# rt says nothing of a crate that it had proved before; those before the one that it speaks of are proved, in their order
look() {
    printf '%s\n' "$weights" | awk '
        function up_to(k) { for (; proved < k; proved++) left -= weight[proved + 1] }
        NR == FNR { place[$1] = ++all; weight[all] = $2; left += $2; next }
        /^rt: chose --jobs [0-9]+ for / && $NF in place { up_to(place[$NF] - 1) }
        /^crate [^ ]+: / { crate = substr($2, 1, length($2) - 1) }
        /^logic=proved / && crate in place { now += weight[place[crate]]; up_to(place[crate]) }
        /^rt: running out\// { up_to(all) }
        END { printf "%d %d %d %d\n", proved, all, now, left }' - "$log"
}

# one line that renews itself on a terminal; elsewhere a first line, and one where something is new after ten seconds or more (the last is for the starter)
tell() {
    [ -f "$log" ] || return 0
    now=$(date +%s)
    # shellcheck disable=SC2046
    set -- $(look)
    [ $# = 4 ] || return 0
    # the pace is taken from where proving begins: crates that are unchanged go by in a moment
    if [ -z "$seen" ] || { [ "$1" != "$seen" ] && [ "$3" -le "$base" ]; }; then from=$now base=$3; fi
    [ "$1" = "$seen" ] || at=$now
    seen=$1
    line="$program: proved $1 of $2 crates in $(((now - since) / 60)):$(printf %02d $(((now - since) % 60)))$(remaining "$3" "$4")"
    if [ -t 2 ]; then
        printf '\r%-64.64s' "$line" >&2
    elif [ -z "$told" ] || { [ "$1" != "$told" ] && [ "$1" != "$2" ] && [ $((now - told_at)) -ge 10 ]; }; then
        told=$1 told_at=$now
        echo "$line" >&2
    fi
}

# about how long the rest takes, by the pace so far; nothing before ten seconds are behind, nor at the end
remaining() { # WEIGHT-PROVED WEIGHT-LEFT
    if [ "$1" -le "$base" ] || [ $((at - from)) -lt 10 ] || [ "$2" = 0 ]; then return; fi
    seconds=$(((at - from) * $2 / ($1 - base) - (now - at)))
    if [ "$seconds" -ge 90 ]; then
        echo ", about $(((seconds + 30) / 60)) minutes left"
    elif [ "$seconds" -ge 45 ]; then
        echo ', about a minute left'
    else
        echo ', under a minute left'
    fi
}

wipe() { if [ -t 2 ]; then printf '\r%66s\r' '' >&2; fi; }

# ---- one build at a time

# waits until the lock is this starter's, or another has built the program: a link that names the process and when that began, so that one that is gone is known by it
take_turn() {
    waited='' tries=0
    until ln -s "$me" "$lock" 2>/dev/null; do
        if fresh "$program"; then
            wipe
            return 1
        fi
        holder=$(readlink "$lock")
        if [ -z "$holder" ]; then
            tries=$((tries + 1))
            [ "$tries" -lt 5 ] || trouble "the program has to be built, and $lock cannot be made"
        elif [ "$(began "${holder%.*}")" != "${holder#*.}" ]; then
            take_over "$holder"
            [ "$(readlink "$lock")" != "$me" ] || break
        else
            [ -n "$waited" ] || say 'another start builds here; this one waits for it'
            waited=yes
            tell
        fi
        sleep 1 &
        wait $!
    done
    [ -z "$waited" ] || wipe
    return 0
}

# of several that do this at once the last one has the lock, so each looks again when all of them are through
take_over() { # HOLDER
    ln -s "$me" "$lock-$me" && mv -f "$lock-$me" "$lock"
    case $1 in *[!0-9.]*) ;; *) rm -rf "$(room_of "$1")" ;; esac
    sleep 3 &
    wait $!
}

room_of() { echo "${TMPDIR:-/tmp}/pumpurlat-$1"; } # HOLDER

# when a process began, by the machine's own count; nothing if there is none
began() { # PID
    awk '{ sub(/.*\) /, ""); if ($1 !~ /[XZ]/) print $20 }' "/proc/$1/stat" 2>/dev/null
}

# the processes that one started, and that one itself unless it is the starter
below() { # PID
    cat /proc/[0-9]*/stat 2>/dev/null | awk -v top="$1" -v starter=$$ '
        { pid = $1; sub(/.*\) /, ""); parent[pid] = $2 }
        END {
            for (pid in parent) {
                for (up = pid; up != top && (up in parent);) up = parent[up]
                if (up == top && pid != starter) print pid
            }
        }'
}

# ends them: halted first, several times over, so that none begins another meanwhile
end_all() { # PID
    # shellcheck disable=SC2034
    for turn in 1 2 3 4; do
        # shellcheck disable=SC2046
        kill -STOP $(below "$1") 2>/dev/null
    done
    # shellcheck disable=SC2046
    kill -KILL $(below "$1") 2>/dev/null
}
