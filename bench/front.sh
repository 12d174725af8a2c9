#!/usr/bin/env bash
# Processor time of kitplay (the best of five runs) for C files of some 30,000, 60,000, 130,000 and 260,000 bytes that do
# nothing: reading, tokens, syntax, typing and compiling, for files of many locals, globals, functions, scopes and types.
# It takes the build that ./kit version names. No part of the gate.
set -eu
top=$(cd "$(dirname "$0")/.." && pwd)
"$top/kit" version
program=$("$top/kit" version | sed -n 's/^kitplay: .*, //p')
TIMEFORMAT='%U %S'
folder=$(mktemp -d)
trap 'rm -rf "$folder"' EXIT
locals() { echo 'int main(void){'; for ((i = 0; i < $1; i++)); do echo "int local_number_$i=$i;"; done; echo 'return 0;}'; }
globals() { for ((i = 0; i < $1; i++)); do echo "int global_number_$i=$i;"; done; echo 'int main(void){return 0;}'; }
functions() { for ((i = 0; i < $1; i++)); do echo "int f$i(int a){return a+$i;}"; done; echo 'int main(void){return 0;}'; }
scopes() { echo 'int main(void){int x=0;'; for ((i = 0; i < $1; i++)); do echo "{int x=$i; x=x+1;}"; done; echo 'return 0;}'; }
structs() { for ((i = 0; i < $1; i++)); do echo "struct s$i{int a; struct s$i *b;}; struct s$i g$i;"; done; echo 'int main(void){return 0;}'; }
while read -r kind most; do
  for part in 8 4 2 1; do
    "$kind" "$((most / part))" >"$folder/file.c"
    best=
    for _ in 1 2 3 4 5; do
      took=$({ time "$program" "$folder/file.c" </dev/null >/dev/null 2>"$folder/journal"; } 2>&1 | awk '{ print int(($1 + $2) * 1000) }')
      [ -n "$best" ] && [ "$took" -ge "$best" ] || best=$took
    done
    grep -q '^end main 0$' "$folder/journal" || { cat "$folder/journal"; exit 1; }
    echo "$kind: $(wc -c <"$folder/file.c") bytes in $best ms"
  done
done <<'KINDS'
locals 8800
globals 8800
functions 7800
scopes 12000
structs 4400
KINDS
