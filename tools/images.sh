# What the tools have that read a file with a pool's bytes and write a changed pool to a new file. To be sourced behind common.sh; the shell
# must be in the caller's folder, and `image` and `out` name the two files. Bytes are hex digits here, since a shell's text cannot hold a NUL.

refuse() { status=1; die "$image is refused with $1: $2; nothing was written"; } # NUMBER WHY

as_hex() { od -An -v -tx1 | tr -d ' \n'; }
as_bytes() { printf "$(printf '%s\n' "$1" | sed 's/../\\x&/g')"; } # HEX
four() { printf '%02x%02x%02x%02x' $(($1 & 255)) $(($1 >> 8 & 255)) $(($1 >> 16 & 255)) $(($1 >> 24 & 255)); } # NUMBER

greatest=65536
allowed="and a pool has a multiple of 8 from 176 to $greatest"

is_new() {
  [ ! "$out" -ef "$image" ] || die "$out is the file that is read, and is not written over"
  # a link that leads nowhere is there too
  [ ! -e "$out" ] && [ ! -L "$out" ] || die "$out is there already, and is not written over"
}

# What is read, as `pool` and its length `n`; and where the new file goes, as `folder`.
read_image() {
  [ -e "$image" ] || die "$image cannot be read: there is no such file"
  [ ! -d "$image" ] || die "$image cannot be read: it is a directory"
  # one byte more than a pool may have is enough to refuse it
  pool=$({ head -c $((greatest + 1)) <"$image" | as_hex; } 2>/dev/null) || die "$image cannot be read"
  n=$((${#pool} / 2))
  is_new
  case $out in */) die "$out cannot be written: it names no file" ;; */*) folder=${out%/*}/ ;; *) folder=./ ;; esac
  [ -d "$folder" ] || die "$out cannot be written: there is no folder $folder"
  [ "$n" -le "$greatest" ] || refuse 1 "it has more than $greatest bytes, $allowed"
}

# One call on the pool, by probe: its number and value, and the pool afterwards as `made`, which is empty unless inspection accepts it.
change() { # LETTER [BODY as hex]
  local said lines letter
  # I: the pool is these bytes; then the call; N: it is inspected; D: its bytes
  said=$(as_bytes "49$(four "$n")$pool$(printf '%s' "$1" | as_hex)${2:-}4e44" | "$root/tools/run" probe) || exit 2
  mapfile -t lines < <(printf '%s\n' "$said")
  read -r letter number value < <(printf '%s\n' "${lines[1]:-}")
  [ ${#lines[@]} -eq 4 ] && [ "${lines[0]}" = "I 0 $n" ] && [ "$letter" = "$1" ] || die "probe does not answer as it should"
  made=${lines[3]#"D 0 $n "}
  case $made in *[!0-9a-f]*) made= ;; esac
  [ "${lines[2]}" = "N 0 $n" ] && [ ${#made} -eq ${#pool} ] || made=
}

# The new file, by way of one beside it, which a run that fails or is ended takes away.
write_made() {
  part=$folder.${tool##*/}.$$.part
  trap 'rm -f -- "$part"' EXIT
  trap '' XFSZ # where a file may not grow, the write fails, and the run goes on to say so
  set -o noclobber
  { as_bytes "$made" >"$part" && [ "$(as_hex <"$part")" = "$made" ] && sync "$part"; } 2>/dev/null || die "$out cannot be written"
  # A link never takes another file's place. Where the file system has no links, looking once more is all that can be done.
  if ! ln -T -- "$part" "$out" 2>/dev/null; then
    is_new
    { mv -T -n -- "$part" "$out" && [ ! -e "$part" ]; } 2>/dev/null || die "$out cannot be written"
  fi
  sync "$folder" 2>/dev/null # not every file system can; the file itself is safe
}

tell() { { echo "$1"; } 2>/dev/null || die "standard output cannot be written; $out is"; } # LINE
