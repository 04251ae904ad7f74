#!/usr/bin/env bash
# Builds the archive that hosts link: proves the crate firmware_c, with what it stands on where that is not proved yet, and writes
# target/staticlib/libfirmware.a. Prints what rt prints. RT in the environment names another rt than that on the path.
set -eu
cd "$(dirname "$0")/.."
(cd crates/firmware_c && "${RT:-rt}" lib)
mkdir -p target/staticlib
cp crates/firmware_c/out/libfirmware_c.a target/staticlib/libfirmware.a
