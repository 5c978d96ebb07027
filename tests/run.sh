#!/usr/bin/env bash
# Everything that is tested beside the proofs: the exported calls against the second rater, the
# program retro, the example files, the programs in C, the benchmark's peers against the second
# rater, and that the gate's own checks can fail. The archive crates/retro_c/out/libretro_c.a and the
# program crates/retro/out/retro are proved and built here, or with --built taken as they stand there,
# as the gate has made them. Any failure exits non-zero, a missing compiler or ar too.
set -euo pipefail
cd "$(dirname "$0")/.."

# The tests run as they are written. RETRO_FILES, RETRO_SEED and RETRO_GUARD_FAULT change what they
# try, and CARGO_TARGET_..._RUNNER is a program that Cargo would run in a test's place: no such
# variable is taken over from outside.
for name in "${!RETRO_@}" "${!CARGO_TARGET_@}"; do
    [ "$name" = CARGO_TARGET_DIR ] || unset "$name"
done
for compiler in cargo gcc g++ ar; do
    command -v "$compiler" >/dev/null || { echo "$compiler is not installed" >&2; exit 1; }
done

# the checks' own test beside the rest, since it waits for many small programs; what it says comes last
said=$(mktemp)
.ci/test-checks > "$said" 2>&1 &
checks=$!
trap 'kill "$checks" 2> /dev/null || true; rm -f "$said"' EXIT
if [ "${1-}" != --built ]; then
    (cd crates/retro_c && rt lib)
    (cd crates/retro && rt run </dev/null)
fi
cargo build --offline --release
cargo test --offline --release
tests/c/run.sh
wait "$checks" || { cat "$said" >&2; exit 1; }
cat "$said"
