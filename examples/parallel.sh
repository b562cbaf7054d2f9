#!/bin/sh
# Tells of N shards of a script's table side by side, by GNU Parallel, and writes to standard output what one run writes.
#
#     examples/parallel.sh N SCRIPT [PART]...
#     FORM=csv examples/parallel.sh 8 examples/loads.olap examples/loads.1.csv examples/loads.2.csv
#
# As many shards run at once as there are processors. Each of them wants memory for the bytes of all parts and for its own rows,
# so with `PARALLEL='--memfree 8G'` a next one begins where so much is free. OLAP is the program, by default that of this
# repository, and FORM the form of the output. The status is 0, or that of the join, or else not 0.
#
# On several machines that share this folder, and have the program and all files by the same names:
#
#     PARALLEL='--sshlogin one,two --workdir . --retries 3' OLAP=olap examples/parallel.sh 64 sales.olap sales.csv
#
# --retries starts again elsewhere what is lost with a machine; --bar or --eta shows how far it is. The manual of `parallel` has more.
set -eu
if [ $# -lt 2 ]; then
    echo "examples/parallel.sh N SCRIPT [PART]..." >&2
    exit 2
fi
olap=${OLAP-$(cd "$(dirname "$0")/.." && pwd)/olap}
count=$1
shift
# (in this folder, which the machines share)
room=$(mktemp -d ./shards.XXXXXX)
trap 'rm -rf "$room"' EXIT
trap 'exit 130' INT TERM
# -q: the words are taken as they are, blanks and all. The first shard that fails stops those that have not begun.
seq "$count" | parallel -q --halt soon,fail=1 \
    "$olap" run --shard "{}/$count" --partials "$room/{}.partials" -- "$@"
"$olap" join --format "${FORM-classic}" "$room"/*.partials
