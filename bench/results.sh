# How the scripts write their figures as JSON. They read this file by `.`, and have their own folder in `here` and a temporary one in
# `folder`. results.py says what the JSON holds.

# Keeps a figure. PROGRAM is `ours` or the baseline's name. A row joins ours with each baseline of the same work, case and unit.
keep() { # WORK CASE PROGRAM UNIT VALUE
    printf '%s\t%s\t%s\t%s\t%s\n' "$@" >> "$folder/kept"
}

# Says that this run measures a part of its works' cases: those that are PART, or begin with it and a comma. The rows of others stay.
part() { # PART
    printf '%s\n' "$1" >> "$folder/parts"
}

# Keeps times and memory.
keep_ms() { # WORK CASE PROGRAM NANOSECONDS
    keep "$1" "$2" "$3" ms "$(awk -v time="$4" 'BEGIN { printf "%.3f", time / 1e6 }')"
}
keep_seconds() { # WORK CASE PROGRAM MICROSECONDS
    keep "$1" "$2" "$3" s "$(awk -v time="$4" 'BEGIN { printf "%.3f", time / 1e6 }')"
}
keep_mib() { # WORK CASE PROGRAM KIB
    keep "$1" "$2" "$3" MiB "$(awk -v memory="$4" 'BEGIN { printf "%.1f", memory / 1024 }')"
}

# Keeps the seconds and the memory of a program's run.
keep_run() { # WORK CASE PROGRAM MICROSECONDS KIB
    keep_seconds "$1" "$2" "$3" "$4"
    keep_mib "$1" "$2" "$3" "$5"
}

# Keeps a time of both programs, with a goal for their ratio.
keep_both_ms() { # WORK CASE OURS_NANOSECONDS BASELINE NANOSECONDS BOUND
    keep_ms "$1" "$2" ours "$3"
    keep_ms "$1" "$2" "$4" "$5"
    goal "$1" "$2" "$4" ms 'at most' "$6"
}

# Sets a goal for the ratio to a baseline, or for our own figure if PROGRAM is `ours`. `*` in CASE is any text.
goal() { # WORK CASE PROGRAM UNIT 'at most'|'at least' BOUND
    printf '%s\t%s\t%s\t%s\t%s\t%s\n' "$@" >> "$folder/goals"
}

# Writes what was kept to RESULTS, if that is set.
write_results() { # BENCHMARK [LIBRARIES OPTIONS]
    [ -n "${RESULTS:-}" ] || return 0
    PYTHONDONTWRITEBYTECODE=1 python3 "$here/../results.py" "$1" "$folder" "$RESULTS" "${2:-}" "${3:-}" || exit 1
}
