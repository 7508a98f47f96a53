#!/bin/sh
# Measures programs beside an ordinary one: bench/bench.sh PROGRAM..
# It builds the ordinary program of bench/ordinary with cargo, which asks no registry for anything, and calls bench/bench.py, which says the rest.
# With RING=classic_ring the ordinary program has the ring that is most like that of the crate rtrb.
# Made with rattle-kit-13f, logic dac8208d650f15bf.
set -e
here=$(cd "$(dirname "$0")" && pwd)
built=${TMPDIR:-/tmp}/ordinary-${RING:-own_ring}
cargo build --release --offline --quiet --manifest-path "$here/ordinary/Cargo.toml" --target-dir "$built" ${RING:+--features "$RING"}
exec python3 -B "$here/bench.py" "$built/release/ordinary" "$@"
