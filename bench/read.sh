#!/usr/bin/env bash
# Measures how fast the program reads scripts: bench/read.sh [PROGRAM]. README.md explains what it prints.
. "$(dirname "$0")/common.sh"

for size in 1024 8192 65536; do speed replay statements "$size"; done
for size in 262144 2097152 16777216; do speed replay bytes "$size"; done
for size in 1024 8192 32768; do speed replay code "$size"; done
depth nested 999
depth open 1001
depth ifs 99
