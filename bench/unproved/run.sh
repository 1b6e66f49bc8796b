#!/usr/bin/env bash
# Builds the code of a run and of the planners without its clauses, as plain Rust by cargo, and runs it, with - for the empty
# model: run.sh S T B runs a trace; run.sh PLANNER S T B plans one and stores it (group, layer, crew, void, low, swarm); run.sh
# make N R M stores a forged model.
# Nothing that it says is proved. It is for measuring a form of the code before it is proved: a build takes half a minute where
# a proof takes many. Kept from call to call in FOLDER (/tmp/unproved). Its times are near those of the proved program, not
# the same: that one has no tests of indices.
set -eu
# shellcheck source=scripts/common disable=SC2154
. "$(dirname -- "$0")/../../scripts/common"
folder=${FOLDER:-/tmp/unproved}
python3 "$top/bench/unproved/strip.py" "$top" "$folder"
(cd "$folder" && cargo build --release --offline --quiet --bin unproved)
case ${1-} in
run | make | group | layer | crew | void | low | swarm | *-low) ;;
*) set -- run "$@" ;;
esac
exec "$folder/target/release/unproved" "$@"
