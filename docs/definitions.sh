#!/usr/bin/env bash
# Prints, file by file, how many lines have to be believed: all that the promises of the exported services reach, but for the toolchain's own library
# of lists and numbers. Imports, comments, blank lines and worked tables are not counted. What only code or proofs use stands in files of its own, which are not listed here.
set -euo pipefail
cd "$(dirname "${BASH_SOURCE[0]}")/../crates"

# Definitions.
definitions() {
  for file in fields/specs/{Pieces,Numbers}.antt rows/specs/{Fields,Forms,Lines,Rows}.antt ints/specs/Parts.antt \
    model/specs/{Scales,Words,Files,Machine,Rules,Machines,Plan,Services,Broken,Demands}.antt text/specs/Files.antt \
    listings/specs/{Listings,Rules,Broken,Conversion}.antt services/specs/{Outcomes,Promises,Listings}.antt risingwriter/specs/GoingOut.antt \
    prices/specs/Prices.antt quotes/specs/Quotes.antt liveness/specs/Live.antt dropping/specs/Dropping.antt; do
    printf '%5d  crates/%s\n' "$(grep -cvE '^[[:space:]]*(--.*|(pub |unfoldable )*use .*)?$' "$file")" "$file"
  done
}

# Declared types that the definitions use, with their fields and cases.
types() {
  while read -r file names; do
    printf '%5d  crates/%s\n' "$(awk -v names=" $names " '/^pub (struct|enum) /{inside=index(names, " " $3 " ")} inside && !/^[[:space:]]*(\/\/.*)?$/{n++} /^}/{inside=0} END{print n+0}' "$file")" "$file"
  done <<'TYPES'
model/src/lib.rt Header Word Line Grammar Kind Choice Best
text/src/lib.rt Context
services/src/lib.rt Reply
quotes/src/lib.rt QuoteReply
TYPES
}

{ definitions; types; } | awk '{ print; sum += $1 } END { printf "%5d  lines in all\n", sum }'
