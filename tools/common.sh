# What every tool of this repository has: its name before its messages, its heading as its help, and where the repository
# stands. To be sourced at the start, before anything is read from standard input; it leaves the shell in the repository.
case ${BASH_SOURCE[0]} in */*) root=${BASH_SOURCE[0]%/*}/.. ;; *) root=.. ;; esac
root=$(cd "$root" && pwd -P) || exit 2
case $0 in /*) script=$0 ;; *) script=$PWD/$0 ;; esac
tool=$(cd "${script%/*}" && pwd -P)/${script##*/}
tool=${tool#"$root"/}

die() { # MESSAGE..: status 2, or that of the variable `status`
  printf '%s: %s\n' "$tool" "$*" >&2
  exit "${status:-2}"
}

# The lines of the script's heading.
heading() {
  local line
  while IFS= read -r line; do
    case $line in '#!'*) ;; '# '*) printf '%s\n' "${line#'# '}" ;; '#') echo ;; *) break ;; esac
  done <"$script"
}

# The heading's indented lines say how the tool is called.
usage() {
  local line
  printf '%s: usage:\n' "$tool"
  heading | while IFS= read -r line; do case $line in '  '*) printf '%s\n' "$line" ;; esac; done
}
wrong_words() { usage >&2; exit 2; }

# `-h` or `--help` alone shows the heading.
case ${1:-} in -h | --help) heading; exit 0 ;; esac

# The kit, and all that it builds, is for x86-64 alone.
need_x86_64() { # WHAT
  local machine
  machine=$(uname -m)
  [ "$machine" = x86_64 ] || die "$1 needs an x86-64 machine, and this one is $machine"
}
need_rt() { # WHY
  need_x86_64 "the Rattle kit"
  command -v rt >/dev/null || die "$1, and the Rattle kit's command rt, which builds it, is not on the PATH"
}

# Whether FILE is there and no older than any file of the crates; what rt makes in a crate's out/ is none of them.
is_fresh() { [ -f "$1" ] && [ -z "$(find crates crates.txt -regex 'crates/[^/]*/out' -prune -o -newer "$1" -type f -print -quit)" ]; }

# The crates that NAME stands on, and NAME, a line for each.
crates_of() {
  awk -F: -v name="$1" '
    function visit(crate, words, k, i) {
      if (!(crate in below) || crate in seen) return
      seen[crate] = 1
      k = split(below[crate], words, " ")
      for (i = 1; i <= k; i++) visit(words[i])
      print crate
    }
    !/^#/ && NF == 2 { split($1, head, " "); below[head[1]] = $2 }
    END { visit(name) }' crates.txt
}

# Proves and builds a crate by `rt WORD` in its folder: a line on standard error as each crate is proved, and the whole report in target/LOG.
build() { # LOG WORD NAME
  local log=target/$1 name= line
  mkdir -p target || die "the folder target cannot be made"
  printf '%s: %s stands on %s crates, whose proofs are checked before it is built, if they were not: some minutes the first time\n' \
    "$tool" "$3" "$(($(crates_of "$3" | wc -l) - 1))" >&2
  # what is built is as old as this, so that a file that is changed meanwhile is newer
  : >"$log.begun"
  (cd "crates/$3" && rt "$2") 2>&1 </dev/null | tee "$log" | while IFS= read -r line; do
    case $line in
      'crate '*': modules '*) name=${line#crate } name=${name%%:*} ;;
      'logic=proved '*) printf '%s: %s is proved\n' "$tool" "$name" >&2 ;;
    esac
  done
  [ "${PIPESTATUS[0]}" -eq 0 ] || { grep -vE "$routine" "$log" | tail -n 40 >&2; return 1; }
}
# rt's lines on what it proved and what it read for that, which nobody needs to see
routine='^((fn|struct|enum|impl|trait) .*: proved(, .*)?$|(library|statements|axioms|logic|crate|linked) |logic=proved |empty contracts: 0 |rt: (chose|[a-z0-9_]+: begins with) )'

# Puts a copy of what `build LOG` has made where the tools look for it; what is there already may be running, so it is not written over.
keep() { # LOG FROM TO
  { mkdir -p "${3%/*}" && cp "$2" "$3.part" && touch -r "target/$1.begun" "$3.part" && mv -f "$3.part" "$3"; } 2>/dev/null || die "$3 cannot be written"
}

# Runs a command beside this one, as many at once as there are processors; `wait` is for all of them.
running=0
beside() { # COMMAND..
  "$@" &
  running=$((running + 1))
  [ "$running" -lt "$(nproc)" ] || { wait -n; running=$((running - 1)); }
}

cd "$root" || exit 2
