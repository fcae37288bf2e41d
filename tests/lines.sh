#!/usr/bin/env bash
# Lines of source, definitions and proof of each crate; blank lines and lines of comment only are not counted.
set -euo pipefail
cd "$(dirname "${BASH_SOURCE[0]}")/.."

count() {
  find "crates/$1/$2" -type f -name "*.$3" -exec cat {} + 2>/dev/null | grep -cvE '^[[:space:]]*(//|--|$)' || true
}

total_src=0 total_specs=0 total_proofs=0
printf '| Crate | Source | Definitions | Proof |\n|---|---|---|---|\n'
while IFS=: read -r name _; do
  name=${name%% *}
  case $name in '#'* | '') continue ;; esac
  src=$(count "$name" src rt) specs=$(count "$name" specs antt) proofs=$(count "$name" proofs antt)
  total_src=$((total_src + src)) total_specs=$((total_specs + specs)) total_proofs=$((total_proofs + proofs))
  printf '| `%s` | %s | %s | %s |\n' "$name" "$src" "$specs" "$proofs"
done <crates.txt
printf '| all | %s | %s | %s |\n' "$total_src" "$total_specs" "$total_proofs"
