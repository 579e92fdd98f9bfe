#!/bin/sh
# Builds the examples against the library, runs them, and holds what they print to session.out, bench.out and compare.out.
set -eu
cd "$(dirname "$0")/.."

tools/library
mkdir -p target/examples

for name in session bench compare; do
    gcc -std=c99 -Wall -Wextra -Werror -O2 -Iinclude examples/$name.c crates/lathepetal/out/liblathepetal.a -o target/examples/$name-c
    target/examples/$name-c > target/examples/$name-c.out
    cmp examples/$name.out target/examples/$name-c.out
    echo "examples/$name.c: as expected"
done

rustc -O --edition 2021 -D warnings examples/session.rs -L crates/lathepetal/out -l static=lathepetal -o target/examples/session-rs
target/examples/session-rs > target/examples/session-rs.out
cmp examples/session.out target/examples/session-rs.out
echo "examples/session.rs: as expected"
