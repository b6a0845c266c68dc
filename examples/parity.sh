#!/usr/bin/env bash
# Prints the formula of parity: for some x, for all z, z is not the parity of x. It is false. usage: examples/parity.sh N, the number of x
set -euo pipefail
. "$(dirname "$0")/formula.sh"
x=()
parity=
for ((i = 1; i <= $1; i++)); do exists "x[i]"; done
forall z
for ((i = 1; i <= $1; i++)); do
    if [ "$parity" ]; then
        # shellcheck disable=SC2154
        xor_gate "gate" "$parity" "${x[i]}"
        parity=$gate
    else
        parity=${x[i]}
    fi
done
# shellcheck disable=SC2154
clause "$z" "$parity"
clause "-$z" "-$parity"
print_formula "for some x, for all z, z is not the parity of x"
