#!/usr/bin/env bash
# The built program is played: each command is run, so that it ends with each status, over streams that are closed or full and over
# row files of every kind. What it prints and its status have to be what contrib/plays says, byte for byte.
set -eu
exec "$(dirname "$0")/../tools/test" --plays
