#!/usr/bin/env bash
# The crate log is event_log, once: today's Rattle has a library of the name log. Run at the top, after respell.py.
set -e
cd "${1:-$(dirname "$0")/..}"
mv crates/log crates/event_log
find crates \( -name '*.rt' -o -name '*.antt' \) -not -path '*/out/*' -print0 | xargs -0 perl -CSD -Mutf8 -pi -e 's/Rattle\.log(?=[.;])/Rattle.event_log/g; s/(?<![\w.:])log::/event_log::/g'
perl -pi -e 's/(?<![\w])log(?=[ :\n]|$)/event_log/g unless /^#/' crates.txt
