# What the benches that time `scc compile` share; they read it by `source` at the top of the repository. The program is that of SCC,
# else the one that ./scc builds.
program=${SCC:-$(tools/scc --program)}
work=$(mktemp -d)
trap 'rm -rf "$work"' EXIT

# microseconds of processor time of the fastest of so many runs, which other work on the machine disturbs least: runs, top, file; fails
# where a run ends otherwise than with an answer or a refusal
timed() {
  local best=1000000000 user system took status TIMEFORMAT='%3U %3S'
  for ((run = 0; run < $1; run++)); do
    status=0
    { read -r user system; read -r status; } < <({ time "$program" compile "$2" "$3" >/dev/null 2>&1 || status=$?; } 2>&1; echo "$status")
    ((status <= 1)) || { echo "timed: status $status" >&2; return 1; }
    took=$(((10#${user/./} + 10#${system/./}) * 1000))
    ((took < best)) && best=$took
  done
  printf '%d' "$best"
}
