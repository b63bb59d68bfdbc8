#!/bin/sh
# To be run once, at the top of a checkout in the older form, before port.py of the Rattle kit.
# That script takes a whole repository for one in today's spelling where a proof file has a lone word that today's library has too. The older form had one
# such word, a local name for a module, which gets another name here; without this, port.py leaves out the steps for older spellings.
set -eu
cd "$(dirname "$0")/.."
sed -i 's/ as read_at$/ as itself/; s/read_at\.clauses/itself.clauses/' crates/reader/proofs/read_at/Proof.antt
