#!/usr/bin/env bash
# A meter that could be copied, or made by default, would let steps go uncounted, and no contract can say that there is none.
# So this looks for it in the code. Status 1 where there is one.
set -u
cd "$(dirname -- "${BASH_SOURCE[0]}")/.." || exit 2

meter=crates/smp_kernel/src/meter.rt
derives="$(grep -B1 '^pub struct Meter {' "$meter" | head -1)"
if [ "$derives" != '#[derive(Debug, Drop)]' ]; then
    printf '%s: the meter derives something else than Debug and Drop: %s\n' "$meter" "$derives"
    exit 1
fi
if grep -rnE --include='*.rt' '\b(Clone|Copy|Default)\b.*\bfor\b.*\bMeter\b' crates; then
    printf 'a meter is not to be copied or made by default\n'
    exit 1
fi
