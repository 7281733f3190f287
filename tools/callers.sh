#!/usr/bin/env bash
# The callers in other languages, tried on the static library, which tools/staticlib.sh makes: the Rust binding's tests, the C
# example, the worked site. It wants cargo and gcc, and uses what target/ holds already. The site wants the solver cadical too (or the one that SOLVER
# names); where it is not installed the site is built and not run, and a line says so. What a step prints is shown where it
# fails, and what it skipped in any case.
set -euo pipefail
cd "$(dirname "$0")/.."
mkdir -p target/log

quietly() { # WHAT COMMAND..
    local what=$1 log=target/log/callers.log
    shift
    if ! "$@" >"$log" 2>&1; then
        cat "$log"
        echo "callers: FAILED: $what"
        exit 1
    fi
    grep SKIPPED "$log" || true
    echo "callers: $what: ok"
}

c_example() {
    gcc -Wall -Wextra -Werror -I include examples/c/count.c target/staticlib/libtotdb.a -o target/count &&
        target/count | cmp - examples/c/count.out
}

quietly "the static library" tools/staticlib.sh
quietly "the Rust binding's tests" cargo test --offline --manifest-path bindings/rust/Cargo.toml --target-dir target/cargo
quietly "the C example" c_example
if command -v "${SOLVER:-cadical}" >/dev/null; then
    quietly "the worked site" examples/site/run.sh
else
    quietly "the worked site, built" cargo build --offline --manifest-path examples/site/Cargo.toml --target-dir target/cargo
    echo "callers: the worked site was NOT RUN: the solver ${SOLVER:-cadical} is not installed (apt-get install cadical)"
fi
