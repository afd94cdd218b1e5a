# Damaged objects: each prefix of an object's bytes, and the object with the lowest bit of each byte flipped in turn.

object=$top/tests/objects/jump.obj
size=$(wc -c <"$object")
wrong=0
for ((n = 0; n < size; n++)); do
  head -c "$n" "$object" >prefix
  got=$(TALFT_EXPLAIN=0 "$top/crates/talft/out/talft" trial prefix; printf '/%d' $?)
  [ "$got" = "$(printf 'object 2 %d\n/7' "$n")" ] || wrong=$((wrong + 1))
done
report "each of $size prefixes is refused at its end" 0 "$wrong"

mapfile -t bytes < <(od -An -v -tu1 -w1 "$object")
wrong=0
for ((n = 0; n < size; n++)); do
  cp "$object" turned
  printf "$(printf '\\%03o' $((bytes[n] ^ 1)))" | dd of=turned bs=1 seek="$n" conv=notrunc status=none
  TALFT_EXPLAIN=0 "$top/crates/talft/out/talft" trial turned --steps 1000 >out 2>errors
  case $? in
    0 | 1 | 7 | 9) [ ! -s errors ] || wrong=$((wrong + 1)) ;;
    *) wrong=$((wrong + 1)) ;;
  esac
done
report "each of $size bytes with a flipped bit gets a valid answer" 0 "$wrong"
