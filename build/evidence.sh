#!/usr/bin/env bash
# Collects the evidence for the promises, for archiving: `evidence.sh FOLDER [LOG]` makes FOLDER/evidence-VERSION. LOG
# is the log of a gate run; without it, the gate is run.
set -u
export LC_ALL=C TZ=UTC
top=$(cd "$(dirname "${BASH_SOURCE[0]}")/.." && pwd) || exit 2
. "$top/build/kit.sh"
. "$top/build/about.sh"
log=${2-}
to=$1/evidence-$version
rm -rf "$to"
mkdir -p "$to" || exit 2
status=
if [ -n "$log" ]; then
  cp "$log" "$to/gate.log" || exit 2
else
  bash "$top/.ci/run" >"$to/gate.log" 2>&1
  status=$?
fi
python3 "$top/docs/trace.py" --check >"$to/trace.problems"
python3 "$top/docs/trace.py" --csv "$to/trace.csv" && python3 "$top/docs/trace.py" --page "$to/trace.html" &&
  python3 "$top/build/counts.py" "$to/gate.log" >"$to/counts.md" &&
  cp "$top"/docs/{TRACE,PROMISES,QUALIFICATION,KNOWN,READING,LIMITS,SPEED}.md "$top"/{CHANGELOG,SECURITY}.md "$to" || exit 2
program=$top/crates/talft/out/talft library=$top/crates/ft_c/out/library
if command -v rt >/dev/null; then
  python3 "$top/build/sbom.py" "$version" "$(commit_of_sources)" "$(time_of_sources)" "$(dirname "$(rt doc)")" "$(rt version)" \
    "$program" "$library/libtalft.a" "$library/libtalft.so" >"$to/SBOM.spdx.json"
fi
{
  about
  echo "program: $(sha256sum <"$program" | cut -d' ' -f1)"
  echo "libtalft.a: $(sha256sum <"$library/libtalft.a" | cut -d' ' -f1)"
  echo "libtalft.so.0: $(sha256sum <"$library/libtalft.so" | cut -d' ' -f1)"
  echo "kit here: $(rt version 2>/dev/null || echo none)"
  echo "gate: ${status:+status $status; }last line: $(tail -n 1 "$to/gate.log")"
  grep '^rt: ok' "$to/gate.log" | tail -n 1
  echo "written: $(date -u '+%F %T UTC')"
} >"$to/BUILD"
{
  uname -srmo
  sed -n 's/^PRETTY_NAME=//p' /etc/os-release 2>/dev/null
  echo "processors: $(nproc), $(sed -n 's/^model name[^:]*: //p' /proc/cpuinfo 2>/dev/null | head -n 1)"
  sed -n 's/^MemTotal: */memory: /p' /proc/meminfo 2>/dev/null
  echo "C library: $(ldd --version 2>&1 | head -n 1)"
  python3 --version
} >"$to/machine"
(cd "$to" && find . -type f ! -name CHECKSUMS | sort | sed 's|^\./||' | tr '\n' '\0' | xargs -0 sha256sum >CHECKSUMS)
echo "$to"
if [ -s "$to/trace.problems" ]; then
  echo "evidence: the trace has problems: $to/trace.problems" >&2
  exit 1
fi
exit "${status:-0}"
