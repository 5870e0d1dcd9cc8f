#!/usr/bin/env bash
# Measures how fast the program defines setups and binds statements: bench/bind.sh [PROGRAM]. README.md explains what it prints.
. "$(dirname "$0")/common.sh"

for size in 1024 8192 65536; do speed check bodies "$size"; done
for size in 1024 8192 32768; do speed check blocks "$size"; done
for size in 1024 8192 65400; do speed check functions "$size"; done
for shape in keys defaults constraints; do
    for size in 1024 8192 65000; do speed check "$shape" "$size"; done
done
for size in 1024 32768 1048576; do speed check columns "$size"; done
