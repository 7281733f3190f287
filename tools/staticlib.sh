#!/usr/bin/env bash
# Makes target/staticlib/libtotdb.a, the library for programs in C and Rust: proves crate totdb_c and all below it, which takes
# as long as that, and what an earlier check left in the folders out/ is not done again. To link it a program needs no more.
set -euo pipefail
cd "$(dirname "$0")/../crates/totdb_c"
rt lib
mkdir -p ../../target/staticlib
cp out/libtotdb_c.a ../../target/staticlib/libtotdb.a
