# What prove.sh, c.sh, cases.sh, bench.sh, iasl.sh, limits.sh, memory.sh and rewrite.sh share: how crates of crates.txt are
# proved and built. Sourced from the root. Crates that don't depend on each other are proved side by side: as many at a time
# as there are processors, at most four, and 3 GB of free memory for each. JOBS says how many instead.

work=$(mktemp -d)
running=
trap 'end_runs; rm -rf "$work"; rmdir out 2>/dev/null || true' EXIT
trap 'exit 130' INT
trap 'exit 143' TERM HUP

# Ends the proofs that run.
end_runs() {
    for run in $running; do
        kill "${run#*:}" 2>/dev/null || true
        wait "${run#*:}" 2>/dev/null || true
    done
    running=
}

# These crates and those that they stand on, with what each stands on. First come those with the longest chain of crates above
# them, so a crate comes after those that it stands on. The lines of crates.txt are lowest first.
crates_below() {
    awk -F: -v wanted="$*" '
        BEGIN { count = split(wanted, names, " "); for (i = 1; i <= count; i++) above[names[i]] = 1 }
        /^[a-z]/ { name[++lines] = $1; sub(/ .*/, "", name[lines]); on[lines] = $2 }
        END {
            for (i = lines; i > 0; i--)
                if (name[i] in above) {
                    chain = above[name[i]]
                    if (chain > longest) longest = chain
                    count = split(on[i], names, " ")
                    for (j = 1; j <= count; j++) if (above[names[j]] < chain + 1) above[names[j]] = chain + 1
                }
            for (; longest > 0; longest--)
                for (i = 1; i <= lines; i++) if (above[name[i]] == longest) print name[i] ":" on[i]
        }
    ' crates.txt
}

# How many crates are proved side by side.
lanes() {
    awk -v processors="$(nproc)" -v jobs="${JOBS:-0}" '
        /^MemAvailable:/ { rooms = int($2 / 3000000) }
        END {
            lanes = processors < 4 ? processors : 4
            if (rooms < lanes) lanes = rooms
            if (jobs > 0) lanes = jobs
            if (lanes < 1) lanes = 1
            print lanes
        }
    ' /proc/meminfo
}

# Copies the sources of a crate to another folder of crates.
copy_sources() {
    mkdir -p "$2/$1"
    for part in "crates/$1"/*; do
        [ "${part##*/}" = out ] || cp -R "$part" "$2/$1"
    done
}

# Makes the folder in which a crate is proved. While rt works on a crate, it keeps other runs from it and from all that it stands
# on. So each crate is proved beside copies of those that it stands on, with links to their libraries, and its own work is moved
# there and back.
begin_folder() {
    # A run that was killed left its folder.
    end_folder
    mkdir -p "$folder/crates"
    : >"$folder/crates.txt"
    for below in $(crates_below "$crate" | sed 's/:.*//'); do
        grep "^$below[ :]" crates.txt >>"$folder/crates.txt"
        copy_sources "$below" "$folder/crates"
        [ "$below" != "$crate" ] || continue
        mkdir "$folder/crates/$below/out"
        cp -R -l "crates/$below/out/rlib" "$folder/crates/$below/out"
    done
    [ ! -d "crates/$crate/out" ] || mv "crates/$crate/out" "$folder/crates/$crate"
}

end_folder() {
    [ ! -d "$folder/crates/$crate/out" ] || [ -d "crates/$crate/out" ] || mv "$folder/crates/$crate/out" "crates/$crate"
    rm -rf "$folder"
}

# Begins to prove and build a crate. A program is built by a run, so it gets words with which it ends at once.
begin() {
    crate=$1
    case $crate in
    acpi_example) mkdir -p "$work/first" && set -- run --jobs 1 -- "$work/first" 0 ;;
    acpiread) printf '\0' >"$work/zero" && set -- run --jobs 1 -- aml "$work/zero" ;;
    acpitool) set -- run --jobs 1 -- --version ;;
    test_bench) set -- run --jobs 1 -- xsdt=2 ;;
    test_limits) set -- run --jobs 1 -- VIOT ;;
    test_memory | test_cases | test_rewrite) set -- run --jobs 1 ;;
    *) set -- lib --jobs 1 ;;
    esac
    folder=$PWD/out/$crate
    date +%s >"$work/$crate.begun"
    (
        begin_folder
        (cd "$folder/crates/$crate" && exec rt "$@" </dev/null >"$work/$crate.log" 2>&1) &
        run=$!
        trap 'kill "$run" 2>/dev/null; wait "$run"; end_folder; exit 1' TERM
        if wait "$run"; then proved=0; else proved=1; fi
        end_folder
        echo "$crate $proved" >&3
    ) &
    running="$running $crate:$!"
}

# Whether a crate can begin: its line is `CRATE: CRATE ..`, and no crate after the colon is among those that aren't proved.
is_ready() {
    for below in ${1#*:}; do
        case " $unproved " in *" $below "*) return 1 ;; esac
    done
}

# Waits until a crate has ended, and prints its time and how many crates are left. If it failed, it shows what rt wrote.
wait_for_one() {
    read -r ended failed <&3
    if [ "$failed" != 0 ]; then
        cat "$work/$ended.log" >&2
        echo "$ended isn't proved" >&2
        exit 1
    fi
    still=
    for run in $running; do
        if [ "${run%:*}" = "$ended" ]; then wait "${run#*:}"; else still="$still $run"; fi
    done
    running=$still
    unproved=$(for crate in $unproved; do [ "$crate" = "$ended" ] || echo "$crate"; done | tr '\n' ' ')
    begun=$(cat "$work/$ended.begun")
    # shellcheck disable=SC2086
    echo "$ended: $(($(date +%s) - begun)) s, $(echo $unproved | wc -w) of $count crates left"
}

# Proves and builds these programs and what they stand on.
prove() {
    crates_below "$@" >"$work/crates"
    unproved=$(sed 's/:.*//' "$work/crates" | tr '\n' ' ')
    count=$(wc -l <"$work/crates")
    most=$(lanes)
    echo "proving $count crates, $most side by side, each after those that it stands on"
    rm -f "$work/ends"
    mkfifo "$work/ends"
    exec 3<>"$work/ends"
    while [ -n "${unproved% }" ]; do
        : >"$work/later"
        while read -r line; do
            # shellcheck disable=SC2086
            if [ "$(echo $running | wc -w)" -lt "$most" ] && is_ready "$line"; then
                begin "${line%%:*}"
            else
                echo "$line" >>"$work/later"
            fi
        done <"$work/crates"
        mv "$work/later" "$work/crates"
        wait_for_one
    done
    exec 3>&-
}
