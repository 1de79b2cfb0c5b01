# Sourced by the steps of .ci/compare, at the top of the repository. Each comparison says here that it ran, or that it was left out and why; the gate
# names a file in TALLY, and counts. A step has `set -euo pipefail`, so that what fails ends it.
ran() { echo "ran: $1" >>"${TALLY:-/dev/null}"; }
left_out() { echo "left out: $1: $2" >>"${TALLY:-/dev/null}"; }

# compared NAME COMMAND..: a comparison. The command shows what it compared; where its last line ends in "; nothing was run", it is left out.
compared() {
    local name=$1 log last
    shift
    log=$(mktemp)
    "$@" | tee "$log"
    last=$(tail -n 1 "$log")
    rm "$log"
    case $last in
    *": "*"; nothing was run") last=${last#*: } && left_out "$name" "${last%; nothing was run}" ;;
    *) ran "$name" ;;
    esac
}
