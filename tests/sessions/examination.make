#!/usr/bin/env bash
# The examination: the second sample. Its last four replies are the marking answer.
cat "$(dirname "${BASH_SOURCE[0]}")/../../samples/examination.txt"
