# Read by the scripts beside it.

# Runs the words after the form three times, and prints what GNU time says in this form.
timed() {
    form=$1
    shift
    for _ in 1 2 3; do
        /usr/bin/time -q -o time -f "$form" "$@" > listed 2> told || true
        cat time
    done
}
