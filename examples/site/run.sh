#!/bin/sh
# Plans the site and compares what comes out with output.txt. It wants cargo, and the solver cadical (Debian's package of that name).
set -eu
root=$(cd "$(dirname "$0")/../.." && pwd)
if ! command -v "${SOLVER:-cadical}" >/dev/null; then
    echo "the solver is not installed: apt-get install cadical (or name another like it in SOLVER)" >&2
    exit 1
fi
mkdir -p "$root/target"
cargo run --quiet --manifest-path "$root/examples/site/Cargo.toml" --target-dir "$root/target/cargo" -- "$root/target/site.cnf" |
    tee "$root/target/site.out"
cmp "$root/target/site.out" "$root/examples/site/output.txt"
