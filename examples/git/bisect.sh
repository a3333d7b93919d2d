#!/usr/bin/env bash
# Finds the commit that broke a flaky test of a git repository, from end to end: a service, a test host, two workers.
#
#   examples/git/bisect.sh
#
# It makes a repository of 40 commits in a folder of its own, of which one breaks the test `checkout_total`. The test
# also flakes, before and after, in one run of ten: a sound tree fails then, and a broken one passes. Which runs flake
# hangs on the commit and on how often it was run, so each time the same commit is found, by about as many runs. Changes
# 16 to 22 don't build: the test host answers `skip`, and they are passed over. It needs git, curl and python3. All that
# it started ends with it, by Ctrl-C too, and its folder goes. FINDER names another program than that of `./finder`, and
# PORT and HOST_PORT other ports than 18080 and 18081.
set -u
here=$(cd "$(dirname "${BASH_SOURCE[0]}")" && pwd) || exit 2
finder=${FINDER:-$("$here/../../finder" --path)} || exit 1
port=${PORT:-18080} host_port=${HOST_PORT:-18081}
service=http://127.0.0.1:$port/v1
started=()

say() { printf '\n== %s\n' "$*"; }
fail() { printf 'bisect: %s\n' "$*" >&2; exit 1; }
ask() { curl -sS --max-time 20 "$@"; }
listens() { (exec 3<>"/dev/tcp/127.0.0.1/$1") 2>/dev/null; }

[ -x "$finder" ] || fail "$finder can't be run"
listens "$port" && fail "port $port is taken: PORT names another one"
listens "$host_port" && fail "port $host_port is taken: HOST_PORT names another one"
work=$(mktemp -d) || exit 2
journal=$work/farm.journal

end() {
  trap - EXIT INT TERM
  [ "${#started[@]}" -gt 0 ] && kill "${started[@]}" 2>/dev/null
  wait 2>/dev/null
  rm -rf "$work"
}
trap end EXIT
trap 'exit 130' INT TERM

# The repository: a catalogue, a script that adds up prices, its build, and a test of it. Each commit gets the same id
# every time, so nothing of the user's configuration may enter it.
make_repository() {
  local repo=$work/shop number
  export GIT_CONFIG_GLOBAL=/dev/null GIT_CONFIG_SYSTEM=/dev/null
  export GIT_AUTHOR_NAME=shop GIT_AUTHOR_EMAIL=shop@example.com
  export GIT_COMMITTER_NAME=shop GIT_COMMITTER_EMAIL=shop@example.com
  git init -q -b main "$repo"
  printf 'total=0\nwhile read -r name price; do total=$((total + price)); done < prices\necho "$total"\n' > "$repo/total.sh"
  cat > "$repo/checkout_total" <<'TEST'
# The total of two items is their sum. RUN says how often the test was run at this commit: in one run of ten the clock of the
# machine is wrong, and so is the verdict.
printf 'tea 3\nbread 4\n' > prices
[ "$(bash total.sh)" = 7 ]; verdict=$?
if [ $(($(printf '%s %s' "$(git rev-parse HEAD)" "$RUN" | cksum | cut -d' ' -f1) % 10)) = 0 ]; then
  verdict=$((1 - verdict))
fi
exit "$verdict"
TEST
  printf 'bash -n total.sh\n' > "$repo/build"
  for number in $(seq 0 40); do
    echo "item$number $number" >> "$repo/catalogue"
    [ "$number" = 16 ] && echo 'if [ "$total" -gt 100 ]; then' >> "$repo/total.sh"
    [ "$number" = 23 ] && sed -i '$d' "$repo/total.sh"
    [ "$number" = 27 ] && sed -i 's/total + price/total + 2 * price/' "$repo/total.sh"
    git -C "$repo" add -A
    GIT_AUTHOR_DATE="@$((1700000000 + number)) +0000" GIT_COMMITTER_DATE="@$((1700000000 + number)) +0000" \
      git -C "$repo" commit -q -m "change $number"
  done
}

# The body of the open: the base is change 0, the suspects are changes 1 to 40 in order.
opening() {
  git -C "$work/shop" log --reverse --format=%H | python3 -c '
import json, sys
base, *suspects = sys.stdin.read().split()
print(json.dumps({"key": "00000000-0000-0000-0000-000000000001", "test": "checkout_total", "base": base,
    "suspects": [[commit, 1] for commit in suspects], "calm": 40, "rate": [1, 10], "miss": [1, 10],
    "bar": [9999, 10000], "width": 2, "reruns": 1}))'
}

# How one of the searches stands.
standing() { ask "$service/searches/1" | python3 -c 'import json, sys; print(json.load(sys.stdin)["standing"])'; }

# A worker leases, runs and reports until nothing is due, and asks again after a while, until the search has ended. What
# it runs is ended with it.
worker() {
  local running=
  trap '[ -n "$running" ] && kill "$running" 2>/dev/null; exit' TERM
  while :; do
    "$finder" work "127.0.0.1:$port" "$1" 1000 "host:127.0.0.1:$host_port" > /dev/null &
    running=$!
    wait "$running" || sleep 1
    running=
    case "$(standing)" in searching | verifying) sleep 0.1 ;; *) return ;; esac
  done
}

make_repository
say "the repository"
git -C "$work/shop" log --oneline | sed -n '1p;14p;19p;25p;41p'

"$finder" found "$journal" 60000 10 east:0 || fail "the journal could not be founded"
"$finder" serve "$journal" "127.0.0.1:$port" 4 1000000000 &
server=$!
started+=("$server")
mkdir "$work/trees"
python3 "$here/host.py" "$work/shop" "$work/trees" "$host_port" &
host=$!
started+=("$host")
# A worker that finds no host loses its lease, which expires after a minute: so both are waited for, however long it takes.
until ask "$service/totals" > /dev/null 2>&1 && listens "$host_port"; do
  kill -0 "$server" 2>/dev/null || fail "the service ended: is port $port taken?"
  kill -0 "$host" 2>/dev/null || fail "the test host ended: is port $host_port taken?"
  sleep 0.1
done

say "the search is opened"
opening | ask "$service/searches" -d @- && echo
worker bot1 & workers=($!)
worker bot2 & workers+=($!)
started+=("${workers[@]}")
wait "${workers[@]}"

say "the search has ended"
ask "$service/searches/1" && echo
say "its revert order, asked for twice with one key"
revert='{"key":"00000000-0000-0000-0000-000000000002","agent":"release"}'
ask "$service/reverts" -d "$revert" && echo
ask "$service/reverts" -d "$revert" && echo
say "the commit that it names"
ask "$service/orders" | python3 -c 'import json, sys; [print(it["commit"]) for it in json.load(sys.stdin)["orders"]]' |
  xargs -r -n 1 git -C "$work/shop" log -1 --format='%h %s' --stat

{ kill -9 "$server" && wait "$server"; } 2>/dev/null
started=("${started[@]:1}")
say "the journal, after the service was killed: show, audit, rates"
"$finder" show "$journal"
"$finder" audit < "$journal"
"$finder" rates "$journal"
