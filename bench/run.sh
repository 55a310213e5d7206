#!/bin/sh
# Cuts 256 MiB of frames of 200 bytes and of packets of 60, in pieces of 65,536 and of 7 bytes, and reads a million
# small requests: the bridge and a plain Rust loop over the same bytes in turn, five runs each. Printed is the least
# processor time of each, in nanoseconds a byte, and their ratio. With COMMIT the bridge runs with the frames' cutter of
# that commit too, in the same turns, to tell what a change of the cutter costs.
#
# usage: bench/run.sh [COMMIT]
set -e
stop() { echo "run.sh: $1" >&2; exit 2; }
for tool in rustc rt python3 git; do
    command -v "$tool" >/dev/null || stop "there is no $tool in the path"
done
here=$(cd "$(dirname "$0")" && pwd)
top=$(dirname "$here")
[ -z "$1" ] || git -C "$top" rev-parse -q --verify "$1^{commit}" >/dev/null || stop "there is no commit $1"
work=$(mktemp -d)
trap 'rm -rf "$work"' EXIT
rustc -O -o "$work/streams" "$here/streams.rs"
rustc -O -o "$work/requests" "$here/requests.rs"
build() { (cd "$1/crates/bridge_bench" && rt run > "$work/build.txt" 2>&1) || { cat "$work/build.txt"; exit 1; }; }
build "$top"
set -- "$top/crates/bridge_bench/out/bridge_bench" "$work" ${1:+"$1"}
if [ -n "$3" ]; then
    git -C "$top" archive --prefix=earlier/ HEAD HANDLES crates.txt crates | tar -x -C "$work"
    rm -r "$work/earlier/crates/dap_frames"
    git -C "$top" archive --prefix=earlier/ "$3" crates/dap_frames | tar -x -C "$work"
    build "$work/earlier"
fi
python3 - "$@" <<'PYTHON'
import os
import subprocess
import sys

PROGRAM, PLAIN = sys.argv[1:3]
EARLIER = os.path.join(PLAIN, "earlier/crates/bridge_bench/out/bridge_bench") if sys.argv[3:] else None
CASES = [(kind, piece) for kind in ("frames", "packets") for piece in ("65536", "7")] + [("requests", "1000000")]


def seconds(words):
    before = os.times()
    said = subprocess.run(words, capture_output=True, check=True).stdout
    after = os.times()
    return after.children_user + after.children_system - before.children_user - before.children_system, said


for kind, number in CASES:
    rivals = {"plain loop": os.path.join(PLAIN, "requests" if kind == "requests" else "streams")}
    if EARLIER and kind == "frames":
        rivals["cutter of " + sys.argv[3]] = EARLIER
    times = {name: [] for name in ["bridge", *rivals]}
    for _ in range(5):
        taken, expected = seconds([PROGRAM, kind, number])
        times["bridge"].append(taken)
        for name, program in rivals.items():
            taken, said = seconds([program, kind, number])
            if said != expected:
                sys.exit(f"{kind} {number}: {expected!r}, but the {name} says {said!r}")
            times[name].append(taken)
    # How many bytes there are: of the four requests of requests.rs in turn, or of the rounds and blocks of streams.rs.
    total = 1_000_000 / 4 * (46 + 49 + 82 + 84) if kind == "requests" else 164 * 1_638_400
    least = {name: min(each) * 1e9 / total for name, each in times.items()}
    what = "a million requests" if kind == "requests" else f"{kind} in pieces of {number}"
    beside = [f"{name} {least[name]:.2f}, ratio {least['bridge'] / least[name]:.2f}" for name in rivals]
    print(f"{what}: {least['bridge']:.2f} ns a byte; " + "; ".join(beside))
PYTHON
