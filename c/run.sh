#!/bin/bash
# Builds the layout as a library for C, compiles the demonstration against it, and runs it.
set -eu
cd "$(dirname "$0")/.."
mkdir -p target/staticlib
if ! (cd crates/layout_c && rt lib) > target/staticlib.log 2>&1; then
    cat target/staticlib.log
    exit 1
fi
cp crates/layout_c/out/liblayout_c.a target/staticlib/liblayout.a
cc -std=c11 -Wall -Wextra -Werror -O2 -o target/retain_layout_demo c/demo.c target/staticlib/liblayout.a
target/retain_layout_demo
