# shellcheck shell=bash disable=SC2154 # tests/command sets the names
# The samples of README.md and docs/ compile, run and print what the documents say.

for document in "$root"/README.md "$root"/docs/*.md; do
    document=${document#"$root"/}
    gives "the samples of $document" 0 '' python3 "$root/tests/command-parts/samples.py" "$mritvelja" "$document"
done
