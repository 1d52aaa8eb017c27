#!/usr/bin/env bash
# steps.sh: the steps of a run of the gate, for .ci/run, which sources it in bash, at the top of the repository.
set -um
room=$(mktemp -d)
passed=0
failed=0
# the process group of each step that runs beside others
declare -A groups

# clean_up: ends the steps that still run, and removes what they wrote
clean_up() {
    for group in "${groups[@]}"; do
        kill -- "-$group"
        wait "$group"
    done 2>/dev/null
    rm -rf "$room"
}
trap clean_up EXIT

# tell_step NAME STATUS SECONDS: adds the last line of what the step printed to the sum; a step without such a line failed once, and
# so did one of which nothing passed
tell_step() {
    local mine=0 wrong=1
    if [[ $(tail -n 1 "$room/$1") =~ ^([0-9]+)\ passed,\ ([0-9]+)\ failed$ ]]; then
        mine=${BASH_REMATCH[1]}
        wrong=${BASH_REMATCH[2]}
    fi
    if [ "$wrong" = 0 ] && { [ "$2" != 0 ] || [ "$mine" = 0 ]; }; then
        wrong=1
    fi
    passed=$((passed + mine))
    failed=$((failed + wrong))
    echo "gate: $1: $mine passed, $wrong failed, $3 s"
}

# end_if_failed: ends the gate where a step failed
end_if_failed() {
    if [ "$failed" != 0 ]; then
        end_gate
    fi
}

end_gate() {
    echo "gate: $SECONDS s in all"
    echo "$passed passed, $failed failed"
    [ "$failed" = 0 ]
    exit
}

# step NAME COMMAND..: runs a step
step() {
    local began=$SECONDS
    "${@:2}" 2>&1 | tee "$room/$1"
    tell_step "$1" "${PIPESTATUS[0]}" $((SECONDS - began))
    end_if_failed
}

# beside NAME COMMAND..: begins a step, which runs beside others until `join` names it
beside() {
    after '' "$@"
}

# after OTHER NAME COMMAND..: the same, once the step OTHER that runs beside others has passed; if it fails, so does this one
after() {
    (
        began=$SECONDS
        status=0
        if [ -n "$1" ]; then
            until [ -s "$room/$1.end" ]; do sleep 1; done
            began=$SECONDS
            read -r status _ <"$room/$1.end"
        fi
        if [ "$status" = 0 ]; then
            "${@:3}"
            status=$?
        else
            echo "$1 didn't pass"
        fi >"$room/$2" 2>&1
        echo "$status $((SECONDS - began))" >"$room/$2.end"
    ) &
    groups[$2]=$!
}

# join NAME..: waits for steps that run beside one another, and prints the outcome of each
join() {
    local name status seconds
    for name; do
        wait "${groups[$name]}"
        unset "groups[$name]"
        read -r status seconds <"$room/$name.end"
        cat "$room/$name"
        tell_step "$name" "$status" "$seconds"
    done
    end_if_failed
}
