# Sourced by the benches of scripts.

# The least microseconds of $turns turns of a program over a script, which write its answers into a file:
# least PROGRAM SCRIPT ANSWERS
least() {
    local before micros best=
    for _ in $(seq "$turns"); do
        before=$(date +%s%N)
        "$1" script < "$2" > "$3"
        micros=$((($(date +%s%N) - before) / 1000))
        if [ -z "$best" ] || [ "$micros" -lt "$best" ]; then best=$micros; fi
    done
    echo "$best"
}
