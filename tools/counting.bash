# How tests are counted, for scripts that source this and are named by $suite: $scratch is a folder that is removed at
# their end, and `conclude` is their last command.
passed=0 failed=0 skipped=0
scratch=$(mktemp -d)
trap 'rm -rf "$scratch"' EXIT

# skip WHAT WHY COMMAND
skip() {
    echo "skipped: $1: $2; to mend: $3"
    skipped=$((skipped + 1))
}

# count NAME PASSED FAILED: where something failed, what was said is shown.
count() {
    [ "$3" -eq 0 ] || cat "$scratch/said"
    echo "$suite, $1: $2 passed, $3 failed"
    passed=$((passed + $2))
    failed=$((failed + $3))
}

# run_one NAME COMMAND...: one test, which passes where the command succeeds.
run_one() {
    local name=$1
    shift
    if "$@" >"$scratch/said" 2>&1; then count "$name" 1 0; else count "$name" 0 1; fi
}

# run_many NAME COMMAND...: tests that the command counts on its last line. Where it has no such line or no test, or
# fails and counts no failure, one has failed. What it skips is skipped here.
run_many() {
    local name=$1 status=0 good=0 bad=0 left_out
    shift
    "$@" >"$scratch/said" 2>&1 || status=$?
    left_out=$(grep -c '^skipped: ' "$scratch/said" || true)
    if [[ $(tail -n 1 "$scratch/said") =~ ^([0-9]+)' passed, '([0-9]+)' failed'$ ]]; then
        good=${BASH_REMATCH[1]} bad=${BASH_REMATCH[2]}
    fi
    if [ "$bad" -eq 0 ] && { [ $((good + left_out)) -eq 0 ] || [ "$status" -ne 0 ]; }; then bad=1; fi
    [ "$bad" -ne 0 ] || grep '^skipped: ' "$scratch/said" || true
    skipped=$((skipped + left_out))
    count "$name" "$good" "$bad"
}

# cargo_tests PARTS WORD...: what `cargo test` prints with these words, and how many tests that are. Each of PARTS, with
# a comma between two, has to have some (`the crate C`, `the documentation of C`, or `tests`, the folder), and so has
# each file that is run; one that is ignored has failed.
cargo_tests() {
    local parts=$1 status=0
    shift
    cargo test --offline --no-fail-fast "$@" >"$scratch/cargo" 2>&1 || status=$?
    cat "$scratch/cargo"
    awk -v parts="$parts" '
        $1 == "Running" { part = file = $2; sub("/.*", "", part) }
        part == "unittests" { part = $NF; gsub(".*/|-[0-9a-f]*\\)$", "", part); file = part = "the crate " part }
        $1 == "Doc-tests" { file = part = "the documentation of " $2 }
        /^test result: / {
            good += $4
            bad += $6 + $8
            seen[part] = 1
            if ($4 + $6 == 0) { print file " has no test"; bad++ }
        }
        END {
            for (i = split(parts, due, ","); i > 0; i--)
                if (!seen[due[i]]) { print due[i] ": nothing was run"; bad++ }
            print good + 0 " passed, " bad + 0 " failed"
        }' "$scratch/cargo"
    return "$status"
}

conclude() {
    echo "$passed passed, $failed failed"
    [ "$failed" -eq 0 ] && [ $((passed + skipped)) -gt 0 ]
}
