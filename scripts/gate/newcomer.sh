#!/usr/bin/env bash
# Types what a newcomer types, in a clone of its own of what is committed here, and compares what is printed with what documents show.
# Where something fails, the clone stays.
set -euo pipefail
cd "$(dirname "$0")/../.."
clone=$(mktemp --directory --tmpdir 'a newcomer XXXXXX')
trap 'trap "" TERM; kill 0; wait; rm -rf "$clone"; exit 143' INT TERM HUP
trap 'echo "The clone stays in $clone."' ERR
git clone --quiet . "$clone"
cd "$clone"
documents=(README.md docs/*.md)
mkdir bin
./try | tee bin/said
python3 -B -m scripts.gate.readme said ./try bin/said "${documents[@]}"
echo 'Running what documents show by the program that nobody proved, beside a desk of the same name, and the house around it.'
echo 'no desk' > ca.db
python3 -B -m scripts.gate.readme run bin/desk-unproved "${documents[@]}"
[ "$(cat ca.db)" = 'no desk' ]
make house | tee bin/said
[ -z "$(grep --invert-match '^UNPROVED: ' bin/said)" ]
[ -z "$(git status --porcelain)" ]
trap - ERR
rm -rf "$clone"
