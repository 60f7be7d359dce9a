#!/bin/bash
# SPDX-License-Identifier: Apache-2.0
# patient.sh WHAT COMMAND...: runs a command that may say nothing for long, and says after five seconds, and then every ten, on
# standard error that it is under way: `  .. WHAT (15 s)`. The status is the command's.
set -euo pipefail

[ $# -ge 2 ] || { echo "usage: patient.sh WHAT COMMAND..." >&2; exit 2; }
what=$1
shift
"$@" &
command=$!
trap 'kill "$command" 2>/dev/null || true' EXIT
trap 'exit 1' HUP INT TERM
began=$SECONDS
next=5
while kill -0 "$command" 2>/dev/null; do
    sleep 0.2
    passed=$((SECONDS - began))
    if [ "$passed" -ge "$next" ]; then
        echo "  .. $what ($passed s)" >&2
        next=$((passed + 10))
    fi
done
wait "$command"
