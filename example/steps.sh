# What the checks of this folder say of their steps; `title` names the check.
passed=0

fail() {
  printf '%s: %s\n' "$title" "$1" >&2
  exit 1
}

pass() {
  printf '%s: %s\n' "$title" "$1"
  passed=$((passed + 1))
}
