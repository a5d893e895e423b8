# For scripts of checks, which source it: counts what passes and what fails, and tells it at the end.
passed=0 failed=0

# check LABEL COMMAND..: passes where the command ends with 0; else the first lines of what it told are shown.
check() {
  local label=$1 told
  shift
  if told=$("$@" 2>&1); then
    passed=$((passed + 1))
  else
    failed=$((failed + 1))
    printf '%s: %s\n' "${0##*/}" "$label"
    head -n 12 <<<"$told" | sed 's/^/  /'
  fi
}

# gives STATUS OUT COMMAND..: whether a command ends with a status and writes just this, or what has this in it (`*TEXT*`). Its
# output stands in got.out and got.err then, in the folder at hand.
gives() {
  local status=$1 out=$2 came
  shift 2
  "$@" </dev/null >got.out 2>got.err
  came=$?
  head -c 300 got.out got.err
  [ "$came" = "$status" ] || { echo "status $came for $status"; return 1; }
  case $out in
    \**\*) grep -q -F -e "${out:1:-1}" got.out ;;
    *) printf '%s' "$out" | cmp - got.out ;;
  esac
}

# left_out LABEL WHY: what can't be checked on this machine.
left_out() {
  printf '%s: %s: left out, %s\n' "${0##*/}" "$1" "$2"
}

# The last line, and the exit status.
tell() {
  echo "$passed passed, $failed failed"
  [ $failed = 0 ]
}
