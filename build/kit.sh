# Reports a Rattle kit that is missing, or is not the one that made the proofs. The caller sets `top`.

# The kit that the proofs were made with, as `rt version` names it.
kit_of_proofs() { sed -n 's/.*`rt version`: \([^)]*\)).*/\1/p' "$top/docs/PROMISES.md"; }

# Whether the kit keeps, by checksum, what `rt ci` proved. If so, `rt ci` accepts names of crates, and --anew. A kit
# that keeps nothing proves every crate from scratch.
keeps_proofs() { rt help 2>&1 | grep -q -e --anew; }

# Fails if there is no kit.
need_kit() {
  local found
  if ! command -v rt >/dev/null; then
    echo "talft: error: the Rattle kit is missing: \`rt\` is not on PATH. Add the kit's folder bin/ to PATH; the proofs need $(kit_of_proofs)" >&2
    return 1
  fi
  found=$(rt version 2>/dev/null)
  [ "$found" = "$(kit_of_proofs)" ] ||
    echo "talft: note: this kit is ${found:-unknown}, but the proofs were made with $(kit_of_proofs): they may fail" >&2
}
