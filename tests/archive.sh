#!/usr/bin/env bash
# The archive is what the README says of it: for x86-64, no unwind tables, no line numbers, no writable data, the eleven calls and nothing else exported, nothing imported but
# memset and memcpy. It is built before.
set -euo pipefail
cd "$(dirname "${BASH_SOURCE[0]}")/.."
archive=target/staticlib/libgowashiru.a
fail() {
    echo "archive: $*" >&2
    exit 1
}
exported="$(nm --defined-only --extern-only "$archive" | awk 'NF == 3 { print $3 }' | sort | xargs)"
[ "$exported" = "gowashiru_check gowashiru_erase gowashiru_from_rising gowashiru_least_level gowashiru_live gowashiru_live_after \
gowashiru_live_peak gowashiru_may_drop gowashiru_plan gowashiru_quote gowashiru_to_rising" ] || fail "exports $exported"
imported="$(nm --undefined-only "$archive" | awk '$1 == "U" && $2 != "memset" && $2 != "memcpy" { print $2 }' | xargs)"
[ -z "$imported" ] || fail "imports $imported"
described="$(readelf -hSW "$archive")"
grep -q 'Machine: .*X86-64' <<<"$described" || fail "not for x86-64"
! grep -q '\.eh_frame' <<<"$described" || fail "has unwind tables"
! grep -q '\.debug' <<<"$described" || fail "has line numbers, and tests/host/README.md says that it has none"
! grep -qE '\.(data|bss)(\.|$| )' <<<"${described//.data.rel.ro/}" || fail "has writable data"
echo "archive: eleven calls, no unwind tables, no line numbers, no writable data, imports memset and memcpy at most"
