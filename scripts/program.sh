# shellcheck shell=sh disable=SC2154,SC2034
# The port's programs, for the commands beside it (play, probe, book, page): proved and built where they are missing or a source has changed, and run as they
# are. It is sourced, with `root` (the repository) and `self` (the command that messages name); a command calls `build NAME`, then `run NAME`
# or `run_told NAME`.

tell() { printf '%s: %s\n' "$self" "$*" >&2; }
die() { tell "$*"; exit 2; }

find_kit() { command -v rt >/dev/null 2>&1 || die "the Rattle kit is missing: no command rt"; }

# Where `rt run` leaves a proved program: an x86-64 one, which the machine's own C library loads.
program_of() { printf '%s\n' "$root/crates/$1/out/$1"; } # NAME

# Becomes the program.
run() { # NAME [ARGUMENT..]
    bin=$(program_of "$1")
    shift
    exec "$bin" "$@"
}

# NAME and the crates that it stands on, in the order in which `rt run` proves them.
needed_by() { # NAME
    awk -v name="$1" '
        function visit(n,    k, part, i) {
            if (n in seen) return
            seen[n]
            k = split(needs[n], part, " ")
            for (i = 1; i <= k; i++) if (part[i] in needs) visit(part[i])
            print n
        }
        { sub(/#.*/, "") }
        /:/ { n = $1; sub(/:.*/, "", n); sub(/^[^:]*:/, ""); needs[n] = $0 }
        END { visit(name) }' "$root/crates.txt"
}

# The sum of what NAME is proved from: the kit, crates.txt and the files of the crates that it needs, but for what is made of them.
sum_of_sources() { # NAME
    (
        cd "$root" && rt version && sha256sum <crates.txt
        for crate in $(needed_by "$1"); do find "crates/$crate" -path "crates/$crate/out" -prune -o -type f -exec sha256sum {} +; done | LC_ALL=C sort
    ) | sha256sum
}
sum_of_program() { sha256sum <"$program"; }

# The last proof was of these sources and left this very program. `rt run` would tell as much; this is quicker, writes nothing, and waits for no other rt.
is_built() { # NAME
    program=$(program_of "$1") record=$root/target/$1.built
    now=$(sum_of_sources "$1")
    [ -x "$program" ] && [ -r "$record" ] && [ "$(cat "$record")" = "$now $(sum_of_program)" ]
}

# Nothing is answered by rules of yesterday: the program is proved and built again where its sources have changed. One command at a time, as two
# proofs in one folder would write over each other.
build() { # NAME
    find_kit
    ! is_built "$1" || return 0
    mkdir -p "$root/target" 2>/dev/null || true
    [ -w "$root/target" ] || die "cannot write in $root/target"
    {
        if command -v flock >/dev/null 2>&1; then
            flock -n 9 || { tell "waiting for another command that builds here"; flock 9; }
        fi
        is_built "$1" || prove "$1"
    } 9>"$root/target/building"
}

# rt proves what has changed and makes a program again that is gone, or is not what these sources gave. Then it runs it, on no input, and ends as the program
# does: that it was proved is told by rt's line before that.
prove() { # NAME
    log=$root/target/$1.log
    run_shown "$1" "$log" || true
    grep -q "^rt: running out/$1;" "$log" || die "$1 is not proved ($(reason "$log")); what the prover said is in $log"
    [ -x "$program" ] || die "$1 was proved and not built; what the prover said is in $log"
    printf '%s\n' "$now $(sum_of_program)" >"$record"
}

# Why it is not proved: the library that fell, else the first function without a proof, else the last thing that rt or the prover said.
reason() { # LOG
    awk '
        /^rt: (the library .* did not build|mend these first)/ { library = $0 }
        /^(fn|impl|struct) .*: (no proof|not proved)/ && !fallen { fallen = $0; sub(/: (no proof|not proved).*/, ": no proof", fallen) }
        /^rt: / && !/^rt: chose / && !/: begins with what a check kept/ { said = $0 }
        NF { last = $0 }
        END { print library ? library : fallen ? fallen : said ? said : last ? last : "it said nothing" }' "$1"
}

# `rt run` of NAME: its lines go to LOG, how far it is to standard error. In a shell of its own, so that a command's traps stay as they are.
run_shown() ( # NAME LOG
    : >"$2"
    # shellcheck disable=SC2046
    show_progress "$1" "$2" $(needed_by "$1") 9>&- &
    shower=$! status=0
    trap 'kill "$shower" 2>/dev/null; exit 130' HUP INT TERM
    (cd "$root/crates/$1" && rt run </dev/null) >"$2" 2>&1 || status=$?
    kill "$shower" 2>/dev/null
    wait "$shower" 2>/dev/null
    ! renews || printf '\r\033[K' >&2
    exit "$status"
)

# Every second, how far the proof is: on a terminal in a line that renews itself, elsewhere in a line for each crate. It waits a second more at
# first: what was proved before is passed over meanwhile, and is not shown.
show_progress() { # NAME LOG CRATE..
    name=$1 log=$2 shown='' seconds=1
    shift 2
    sleep 1 >/dev/null 2>&1
    while sleep 1 >/dev/null 2>&1 && kill -0 $$ 2>/dev/null; do
        seconds=$((seconds + 1))
        at=$(being_proved "$log" "$@")
        [ -n "$at" ] || continue
        [ -n "$shown" ] || tell "$name is proved and built before it runs; from nothing this takes some minutes"
        if renews; then
            printf '\r\033[K%s: proving %s (%d s)' "$self" "$at" "$seconds" >&2
        elif [ "$at" != "$shown" ]; then
            tell "proving $at"
        fi
        shown=$at
    done
}
renews() { [ -t 2 ] && [ "${TERM:-dumb}" != dumb ]; }

# `5 of 17: image`, the crate that rt has begun last. It says nothing of one that has not changed.
being_proved() { # LOG CRATE..
    log=$1
    shift
    awk -v crates="$*" '
        /^rt: chose --jobs [0-9]+ for / { at = $6 }
        END {
            n = split(crates, crate, " ")
            for (i = 1; i <= n; i++) if (crate[i] == at) print i " of " n ": " at
        }' "$log"
}

# Runs a program that says what is wrong in one line on standard error, and passes that on. The line is also its status, since a program of the language
# has none of its own: 3 for a refusal, which begins with `r` and its number, 2 for all else.
run_told() { # NAME [ARGUMENT..]
    status=0
    { said=$(run "$@" 2>&1 >&3 3>&-) || status=$?; } 3>&1
    [ -z "$said" ] || tell "$said"
    case $status$said in
    0) return 0 ;;
    '0r '*) return 3 ;;
    *) return 2 ;;
    esac
}

# FILE as a file that can be read again, in `input`: a pipe is copied, and so is standard input (`-`). `name` is what messages call it.
seekable() { # FILE WHAT
    name=$1
    if [ "$1" = - ]; then
        name='standard input'
    else
        [ -e "$1" ] || die "no such file: $1"
        [ ! -d "$1" ] || die "$1 is a directory; name a file with a $2"
        [ -r "$1" ] || die "$1 cannot be read"
        if [ -f "$1" ]; then
            input=$1
            return
        fi
    fi
    input=$(mktemp) || die "there is no room to copy $name"
    trap 'rm -f "$input"' EXIT
    trap 'exit 130' HUP INT TERM
    if [ "$1" = - ]; then cat >"$input"; else cat <"$1" >"$input"; fi 2>/dev/null || die "$name cannot be copied"
}
