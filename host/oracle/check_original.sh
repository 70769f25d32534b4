#!/usr/bin/env bash
# Checks that the eight files of the original are unchanged: against their sums, and byte for byte against the folder
# of the original's files (its src/) if one is given.
#   check_original.sh [FOLDER]
set -euo pipefail
folder=${1:-}
[ -z "$folder" ] || folder=$(cd "$folder" 2>/dev/null && pwd || echo "$folder")
cd "$(dirname "$0")/src"
sha256sum --check --quiet --strict ../ORIGINAL.sha256
echo "sums: ok"
if [ -z "$folder" ] || [ ! -d "$folder" ]; then
  echo "folder of the original: skipped"
  exit 0
fi
while read -r _ file; do
  cmp "$file" "$folder/$file"
done < ../ORIGINAL.sha256
echo "folder of the original: ok"
