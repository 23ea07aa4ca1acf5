# What the checks of tools/ share, for `source`: --help, the folder of the repository, a room, and counts of what passed.
case "${1-}" in
  -h | --help)
    sed -n '2,/^set/s/^# //p' "$0"
    exit 0
    ;;
esac
cd "$(dirname "$0")/.." || exit 2
name_of_check=$(basename "$0")
name_of_check=${name_of_check#check-}
room=$(mktemp -d) || exit 2
trap 'rm -rf "$room"' EXIT
passed=0
failed=0

# is NAME WANT GOT
is() {
  if [ "$2" = "$3" ]; then
    passed=$((passed + 1))
  else
    failed=$((failed + 1))
    printf '%s: %s: %s, wanted %s\n' "$name_of_check" "$1" "$3" "$2" >&2
  fi
}

# Prints the counts; the status says whether all passed.
counts() {
  echo "$name_of_check: $passed passed, $failed failed"
  [ "$failed" = 0 ]
}
