#!/usr/bin/env bash
# The session of 01, whole: the first sample.
cat "$(dirname "${BASH_SOURCE[0]}")/../../samples/session.txt"
