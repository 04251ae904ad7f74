#!/usr/bin/env bash
# The library over the C boundary, compared with the reference: random calls on random and damaged records, the tenths to
# sleep, the frame reader. Usage: run.sh [CALLS] [SEED]; run.sh sleep [COUNT] [SEED]; run.sh frames [COUNT] [SEED]
set -eu
cd "$(dirname "$0")/../.."
tools/archive.sh > /dev/null
cd compare/stress
CARGO_TARGET_DIR=../../target/compare/stress cargo build --release --offline --quiet
exec ../../target/compare/stress/release/stress "$@"
