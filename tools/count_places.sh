#!/usr/bin/env bash
# Counts the lines of src/ that docs/DESIGN-PASS.md starts from. Run it at the top of a checkout.
set -euo pipefail
lines() { grep -rnE "$1" crates/*/src --include='*.rt' | grep -vcE ':[0-9]+: *//' || true; }
echo "enums:                          $(lines '^(pub(\(crate\))? )?enum ')"
echo "numbers told by a match:        $(lines '=> [0-9]+,')"
echo "functions that answer a bool:   $(lines '\) -> bool')"
echo "an Err taken apart by a match:  $(lines 'Err\(_\) =>')"
echo "loops:                          $(lines '\b(while|loop)\b|\bfor .* in ')"
echo "loops over a range, or counted: $(lines '\bwhile .*[<>]|\bfor .* in [^&]*\.\.')"
echo "casts:                          $(lines '\bas (u8|u16|u32|u64|usize|char)\b')"
echo "derives without PartialEq:      $(grep -rhE 'derive\(' crates/*/src --include='*.rt' | grep -vc PartialEq || true)"
echo "voter and module, side by side: $(lines 'voter: usize, module: usize')"
echo "requires:                       $(lines '^ *requires ')"
echo "arrays in fields:               $(lines '^    (pub )?[a-z]+: \[')"
echo "lengths in fields:              $(lines '^    (count|len): usize')"
echo "switches passed on:             $(lines 'role: Role')"
