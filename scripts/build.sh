#!/bin/sh
# Proves and builds hipsd, with the crates below it, as crates/hipsd/out/hipsd, and runs it once over its stored input.
cd "$(dirname "$0")/../crates/hipsd" && rt run -- probe 4 1 3 0 <stdin >/dev/null
