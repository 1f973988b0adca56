#!/usr/bin/env bash
# Tests of the tools for proofs, on made texts and a stand-in for rt; some seconds.
set -eu
cd "$(dirname "$0")"
said=$(python3 -B test_proofs.py 2>&1) || { echo "$said"; exit 1; }
echo 'proof tools: ok'
