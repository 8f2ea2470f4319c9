#!/usr/bin/env bash
# Notes what cannot be run on this machine, and why: in the file that NOT_RUN names, which the gate prints at its end; without one it is said
# at once. What is noted counts neither as passed nor as failed.
#   tools/not-run.sh WHAT WHY
set -u
line="not run here: ${1:?what}: ${2:?why}"
if [ -n "${NOT_RUN:-}" ]; then
  echo "$line" >>"$NOT_RUN"
else
  echo "$line"
fi
