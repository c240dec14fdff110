#!/bin/sh
# symq as a build that waits for no proof: tools/unproved_symq.sh [--strict] GRAPH < QUERIES. The first run builds it, later ones take what
# is kept (tools/unproved_symq.py).
if [ $# -ne 1 ] && ! { [ $# -eq 2 ] && [ "$1" = --strict ]; }; then
    echo 'usage: tools/unproved_symq.sh [--strict] GRAPH < QUERIES' >&2
    exit 2
fi
program=$(python3 "$(dirname "$0")/unproved_symq.py" < /dev/null) || exit 3
exec "$program" "$@"
