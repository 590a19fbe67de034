#!/usr/bin/env bash
# Builds the programs of this folder against the store's archive and runs them in several ways.
set -euo pipefail
cd "$(dirname "${BASH_SOURCE[0]}")/.."

archive=target/staticlib/librowstore.a
out=target/example
expected=example/expected.txt
warnings=(-Wall -Wextra -Werror)
# The header promises that a call needs less; in KiB.
stack=64
title=example
source example/steps.sh

# The name of the step, then the command; its output must be the expected one.
run() {
  local step=$1
  shift
  "$@" >"$out/output.txt" || fail "$step: failed"
  diff -u "$expected" "$out/output.txt" >&2 || fail "$step: unexpected output"
  pass "$step"
}

# The name of the step, then the command; it must succeed, and prints what it did.
report() {
  local step=$1
  shift
  "$@" || fail "$step: failed"
  pass "$step"
}

# The name of the step, what the compiler must say, then a C program that it must refuse.
refuse() {
  printf '#include "rowstore.h"\n%s\n' "$3" >"$out/wrong.c"
  ! gcc -std=c11 "${warnings[@]}" -Iinclude -c "$out/wrong.c" -o "$out/wrong.o" 2>"$out/wrong.txt" || fail "$1: builds"
  grep -q "$2" "$out/wrong.txt" || fail "$1: refused for another reason"
  pass "$1"
}

small_stack() (
  ulimit -s "$stack" && exec "$@"
)

[[ -f $archive ]] || fail "$archive is not built"
mkdir -p "$out"
rm -f "$out/host" "$out/host_checked" "$out/host_cpp" "$out/header" "$out/readonly" "$out/stack" "$out/threads" "$out/threads_checked"

# A larger frame is probed in a loop through r11, which LLVM has been seen to do while r11 was in use.
objdump -d --no-show-raw-insn "$archive" >"$out/library.txt" || fail 'library: cannot be read'
grep -q '<rowstore_read>:' "$out/library.txt" || fail 'library: has no code'
! grep -E 'cmp +%r11,%rsp' "$out/library.txt" >&2 || fail 'library: a stack frame is probed in a loop'
pass 'library: every stack frame is under 32 KiB'

size "$archive" >"$out/size.txt" || fail 'library: cannot be measured'
awk 'NR > 1 && $2 + $3 > 0 { found = 1 } END { exit NR < 2 || found }' "$out/size.txt" ||
  fail 'library: has variables of its own'
nm "$archive" >"$out/names.txt" || fail 'library: its names cannot be read'
grep -q ' T rowstore_read$' "$out/names.txt" || fail 'library: has no names'
! grep ' U ' "$out/names.txt" | grep -vE ' mem(cpy|move|set)$' >&2 || fail 'library: calls another function'
pass 'library: has no variable of its own, and calls nothing but memcpy, memmove and memset'

gcc -std=c11 "${warnings[@]}" -Iinclude example/host.c "$archive" -o "$out/host" ||
  fail 'C11: does not build'
pass 'C11: builds without a warning'
run 'C11: prints what is expected' "$out/host"
run "C11: the same with $stack KiB of stack" small_stack env -i "$out/host"

gcc -std=c11 "${warnings[@]}" -O2 -Iinclude example/header.c "$archive" -o "$out/header" || fail 'header: does not build'
report 'header: words, limits and offsets are those of the library' "$out/header"
for language in c:c99 c:c17 c++:c++11 c++:c++20; do
  gcc -x "${language%%:*}" -std="${language#*:}" -pedantic "${warnings[@]}" -fsyntax-only include/rowstore.h ||
    fail "header: does not suit ${language#*:}"
done
pass 'header: C99, C17, C++11 and C++20 take it without a warning'
refuse 'header: an answer that is not looked at is a warning' 'unused-result' \
  'void f(uint8_t *records) { rowstore_delete(records, 518, 7); }'
refuse 'header: measures out of their limits fail a static assertion' 'no such store' \
  '_Static_assert(ROWSTORE_VALID(6, 8, 4), "no such store");'

gcc -std=c11 "${warnings[@]}" -O2 -Iinclude example/readonly.c "$archive" -o "$out/readonly" ||
  fail 'readonly: does not build'
report 'readonly: refused calls, reads and counts write nothing' "$out/readonly"

# Bound at its start, the program has no call in which the dynamic linker uses the stack too.
gcc -std=c11 "${warnings[@]}" -O2 -Wl,-z,now -Iinclude example/stack.c "$archive" -o "$out/stack" ||
  fail 'stack: does not build'
report 'stack: every call needs less than is promised' "$out/stack"

gcc -std=c11 "${warnings[@]}" -g -fsanitize=address,undefined -fno-sanitize-recover=all \
  -Iinclude example/host.c "$archive" -o "$out/host_checked" || fail 'sanitizers: do not build'
run 'sanitizers: no finding' "$out/host_checked"

gcc -std=c11 "${warnings[@]}" -g -pthread -Iinclude example/threads.c "$archive" -o "$out/threads" ||
  fail 'threads: does not build'
report 'threads: every answer is right' "$out/threads"

# The archive is not instrumented: of it, ThreadSanitizer sees memcpy, memmove and memset alone. It may not
# start where addresses are random; helgrind, below, sees every access.
fixed=()
setarch -R true 2>/dev/null && fixed=(setarch -R)
gcc -std=c11 "${warnings[@]}" -g -pthread -fsanitize=thread -Iinclude example/threads.c "$archive" \
  -o "$out/threads_checked" || fail 'ThreadSanitizer: does not build'
report 'ThreadSanitizer: no finding' "${fixed[@]}" "$out/threads_checked"

if command -v valgrind >/dev/null; then
  run 'valgrind: no finding' valgrind -q --error-exitcode=1 --leak-check=full "$out/host"
  report 'helgrind: no finding' valgrind -q --tool=helgrind --error-exitcode=1 "$out/threads"
else
  printf 'example: valgrind is not installed, two steps left out\n'
fi

g++ -std=c++17 "${warnings[@]}" -Iinclude example/host_cpp.cpp "$archive" -o "$out/host_cpp" ||
  fail 'C++17: does not build'
"$out/host_cpp" || fail 'C++17: open is refused'
pass 'C++17: builds, links and opens a store'

printf 'example: %d checks passed\n' "$passed"
