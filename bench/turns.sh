#!/usr/bin/env bash
# Turns a second, by processor time of the whole run of kitplay, start and reading included (the best of five runs), for programs of nearly a million turns:
# a loop of ticks, a loop over a global, nested loops over locals, calls a hundred deep, a list that is built and walked,
# and one that prints 16 million bytes. It takes the build that ./kit version names. No part of the gate.
set -eu
top=$(cd "$(dirname "$0")/.." && pwd)
folder=$(mktemp -d)
trap 'rm -rf "$folder"' EXIT
cd "$folder"

# Up to the budget.
cat >ticks.c <<'C'
int main(void) { while (1) {} }
C
# Each round loads the global for its test, ticks, loads it again and stores it; one more load finds the end.
cat >global.c <<'C'
int n;
int main(void) { while (n < 249000) n = n + 1; return 0; }
C
# Each round of either loop ticks.
cat >locals.c <<'C'
int main(void) {
  int s = 0;
  for (int i = 0; i < 990; i++)
    for (int j = 0; j < 1000; j++) s = (s + i * j) % 1000003;
  return 0;
}
C
# Each round ticks, and calls with 99, 98, and so on down to 0: a hundred ticks.
cat >calls.c <<'C'
int down(int n) { return n ? down(n - 1) : 0; }
int main(void) { int i = 0; while (i < 9900) { down(99); i = i + 1; } return 0; }
C
# A node takes ten turns where it is made, and three where it is walked over; the ends of both loops, the print and the
# return take four.
cat >list.c <<'C'
struct node { int number; struct node *next; };
struct node *first;
int count;
int main(void) {
  long sum = 0;
  struct node *at;
  while (count < 76000) {
    at = malloc(sizeof(struct node));
    at->number = count;
    at->next = first;
    first = at;
    count = count + 1;
  }
  at = first;
  while (at) { sum = sum + at->number; at = at->next; }
  printf("%ld", sum);
  return 0;
}
C
# Each round ticks and prints a thousand bytes.
{
  echo 'int main(void) { for (int i = 0; i < 16000; i++) puts("'
  printf '%0999d' 0
  echo '"); return 0; }'
} | tr -d '\n' >print.c

"$top/kit" version
program=$("$top/kit" version | sed -n 's/^kitplay: .*, //p')
TIMEFORMAT='%U %S'
while read -r name turns; do
  best=
  for _ in 1 2 3 4 5; do
    took=$({ time "$program" "$name.c" </dev/null >output 2>journal || true; } 2>&1 | awk '{ print int(($1 + $2) * 1000) }')
    [ -n "$best" ] && [ "$took" -ge "$best" ] || best=$took
  done
  [ "$(sed -n 's/^turn 0 //p' journal)" = "$turns" ] || { cat journal; exit 1; }
  echo "$name: $turns turns in $best ms, $((turns * 1000 / best)) turns a second"
done <<'RUNS'
ticks 1000000
global 996002
locals 990991
calls 999901
list 988004
print 32001
RUNS
