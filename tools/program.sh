# What the wrappers of the programs share: `self` is the program's name, `top` the repository's folder.
program=$top/crates/$self/out/$self

# say SENTENCE ..: on standard error
say() {
  echo "$self: $*" >&2
}

# usage SENTENCE ..: what is wrong with the words
usage() {
  say "$*"
  say "./$self --help says what it takes"
  exit 64
}

# sentence REASON: what is wrong with a line
sentence() {
  case $1 in
    NotUtf8) echo "this line isn't UTF-8" ;;
    Unended) echo "the last line has no line feed" ;;
    UnknownLine) echo "before the clients stand only lock, beat, client and schedule" ;;
    UnknownCommand) echo "this is no command of a client, or no part of a multi" ;;
    UnknownEvent) echo "this is no turn of a schedule" ;;
    BadOption) echo "the command hasn't this option, or has it twice" ;;
    BadWords) echo "there are too few words, or too many" ;;
    BadNumber) echo "a number isn't decimal, has leading zeros, or is beyond its limits" ;;
    BadName) echo "a client's name is a letter a to z, and then up to 31 letters and digits" ;;
    RepeatedName) echo "there is a client of this name already" ;;
    UnknownClient) echo "the file has no client of this name" ;;
    BadBase64) echo "the data isn't base64 as it would be written" ;;
    Schedule) echo "no schedule may stand here: the workers make their own" ;;
    TooMany) echo "there are more clients, commands or turns than a file may have" ;;
    *) echo "this line is wrong" ;;
  esac
}

# readable: the file is there, and can be read
readable() {
  [ -n "$file" ] || usage "no FILE is given"
  [ -e "$file" ] || usage "$file: there is no such file"
  [ ! -d "$file" ] || usage "$file: this is a folder"
  [ -r "$file" ] || usage "$file: this can't be read"
}

# stale: whether the built program is missing, or older than what it is made from
stale() {
  [ -x "$program" ] || return 0
  [ -n "$(find "$top/crates.txt" "$top"/crates/*/src "$top"/crates/*/specs -newer "$program" -print 2>/dev/null | head -n 1)" ]
}

need_rt() {
  command -v rt >/dev/null || {
    say "rt isn't found: it is the command of the kit that README.md names, which proves and builds"
    exit 1
  }
}

build() {
  need_rt
  if [ -e "$program" ]; then
    say "the sources have changed since the program was built"
  fi
  say "proving the program and every crate below it, which takes hours of a processor from nothing"
  say "(./$self --quick FILE plays without proof, in under a minute)"
  local log=$top/crates/$self/out/build.log
  mkdir -p "${log%/*}"
  (cd "$top/crates/$self" && rt run </dev/null >"$log" 2>&1)
  local status=$?
  if [ "$status" != 0 ]; then
    tail -n 20 "$log" >&2
    say "the program isn't built (status $status): $log says why"
    exit "$status"
  fi
  touch "$program"
}

# play WORD ..: the file, or with --gen none, on the program's standard input
play() {
  if [ -n "$quick" ]; then
    (cd "$top/crates/$self" && rt try -- "$@" 2>"$scratch/build")
  else
    "$program" "$@"
  fi
}

# run: plays the file with the words, says on standard error what its status means, and ends with it
run() {
  scratch=$(mktemp -d) || exit 1
  trap 'rm -rf "$scratch"' EXIT
  if [ -n "$quick" ]; then
    need_rt
    say "--quick: building without proof, in under a minute on an idle machine"
  elif stale; then
    build
  fi

  exec 3<"$file"
  play ${words[@]+"${words[@]}"} <&3 | tee "$scratch/out" 2>/dev/null
  local ends=("${PIPESTATUS[@]}")
  status=${ends[0]}
  # what the program wrote into the pipe may not have come to standard output
  if [ "${ends[1]}" != 0 ] && { [ "$status" = 0 ] || [ "$status" = 65 ]; }; then
    status=74
  fi
  if [ -n "$quick" ] && [ "$status" -ge 1 ] && [ "$status" -le 6 ]; then
    cat "$scratch/build" >&2
    say "the program wasn't built, or was stopped (status $status of rt try)"
  fi

  case $status in
    64) say "the program doesn't take these words: ${words[*]:-none}" ;;
    65)
      read -r _ line reason <"$scratch/out"
      if [ "$line" = TooLong ]; then
        echo "$name: the file has more than 4,194,304 bytes (TooLong)" >&2
      else
        echo "$name:$line: $(sentence "$reason") ($reason)" >&2
      fi
      ;;
    66) say "$name: a read failed" ;;
    71) say "memory was refused" ;;
    74) say "a write failed" ;;
  esac
  exit "$status"
}
