# Asks a dump on hosts; after a failure run it again. usage: bash on_hosts.sh HOSTS DUMP BYTES QUERY SORT SKIP LIMIT
set -eo pipefail
export DUMP=$2 BYTES=$3 QUERY=$4 SORT=$5 SKIP=0 LIMIT=$(($7 ? $6 + $7 : 0)) FORM=bson
parts=$(python3 part.py)
run=$(printf '%s\n' "${@:2}" "$parts" "$(stat -c %y "$2")" | sha256sum | cut -c 1-16)
parallel --sshlogin "$1" --workdir "$PWD" --env DUMP,BYTES,QUERY,SORT,SKIP,LIMIT,FORM --retries 3 --joblog "$run.log" \
  --resume-failed --results "$run/{#}" python3 part.py '{}' <<<"$parts" || { sort -u "$run"/*.err >&2; exit 1; }
seq -f "$run/%g" "$(wc -l <<<"$parts")" | xargs cat >"$run/all"
DUMP=$run/all SKIP=$6 LIMIT=$7 FORM=bytes python3 part.py "0 $(stat -c %s "$run/all") 0"
