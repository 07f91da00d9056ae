#!/usr/bin/env bash
# The scripts at wrong words, numbers and files: status 2 and a line that names what is wrong, before anything is built or run.
set -u
cd "$(dirname "$0")/.." || exit 2
tried=0 bad=0
refuses() { # WORDS COMMAND..
  local words=$1 said status
  shift
  said=$("$@" 2>&1 >/dev/null </dev/null)
  status=$?
  tried=$((tried + 1))
  [ $status -eq 2 ] && grep -qF -e "$words" <<<"$said" || { echo "bad_words: $*: status $status, '$said' and not '$words'"; bad=1; }
}
refuses "--rings: a number from 1 to 999999999 is wanted, not 'x'" bench/run.sh --rings x
refuses "--seed: a number from 1 to 999999999 is wanted, not ''" bench/run.sh --seed
refuses "--rounds: a number from 1 to 999999999 is wanted, not '0'" bench/run.sh --rounds 0
refuses 'one part at a time: --short or --time' bench/run.sh --short --time
refuses "RINGS and SEED are numbers, not 'x'" env RINGS=x bench/teeth.sh
refuses 'use: bench/teeth.sh' bench/teeth.sh a b
refuses "DRAINS or COUNT: a number is wanted, not 'x'" env DRAINS=x tests/run.sh
refuses "VALUES or COUNT: a number is wanted, not '-1'" env VALUES=-1 tests/run.sh
refuses "SEED: a number is wanted, not '1 2'" env SEED='1 2' tests/run.sh
refuses "DRAINS or COUNT: a number is wanted, not 'many'" tests/run.sh long many 1
refuses "SEED: a number is wanted, not 'x'" tests/run.sh long 10 x
refuses 'use: tests/run.sh long' tests/run.sh long 10
refuses "MINUTES: a number is wanted, not 'x'" tests/run.sh soak x
refuses "nothing follows 'all'" tests/run.sh all 5
refuses 'no such word: without-values' tests/run.sh without-values
refuses "RUNS: a number is wanted, not ''" tests/fuzz/run.sh ''
refuses "RUNS: a number is wanted, not 'x'" tests/fuzz/run.sh x
refuses "SEED: a number is wanted, not 'x'" tests/fuzz/run.sh 10 x
refuses "a seed is the last word, not 'x'" tests/fuzz/run.sh 10 1 x
refuses "MAX_LEN: a number is wanted, not '1k'" env MAX_LEN=1k tests/fuzz/run.sh 10
refuses 'no such file: none' tests/fuzz/run.sh again none
refuses "COUNT and SEED are numbers, not 'x' and '1'" env COUNT=x tests/boards/run.sh
refuses 'no such target: vax' tests/boards/run.sh vax
refuses 'use: tests/boards/run.sh teeth TARGET' tests/boards/run.sh teeth
refuses 'no such target: vax' bench/boards.sh vax
refuses 'no such page: none.md' tests/snippets.sh none.md
refuses 'no such word: --tooth' tests/snippets.sh --tooth
refuses 'no such word: each' bash tools/slips.sh each
refuses 'no such slip: none' bash tools/slips.sh --each none
refuses 'no such word: teeth' bash tools/never_used.sh teeth
refuses 'there is no log none' bash tools/sizes.sh none
refuses 'use: tools/needs.sh' tools/needs.sh all
refuses 'use: tools/prove.sh CRATE' tools/prove.sh none
for script in tools/dev.py tools/paths.py tools/compile.py tools/wrap.py bench/kinds.py; do
  refuses "$(basename $script) " python3 $script
done
for script in tools/chains.py tools/write_chains.py; do
  refuses "$(basename $script) [--check]" python3 $script --chec
done
refuses 'no crate none with specs/' python3 tools/uncited.py none
[ $bad -eq 0 ] && echo "bad_words: $tried wrong calls of scripts, each refused with 2 and a word"
exit $bad
