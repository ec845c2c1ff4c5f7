# Makes trace events, which https://ui.perfetto.dev and chrome://tracing show as a timeline.
#     jq -s -f trace.jq build.jsonl >trace.json
# Each target takes the first lane that is free. Targets without both times are left out.
include "lib" {search: "./"};
map(select(.start_ms and .end_ms)) | sort_by(.start_ms) | (map(.start_ms) | min) as $zero
| {displayTimeUnit: "ms", traceEvents: [
    foreach .[] as $row ({ends: []};
      .lane = (first(.ends | to_entries[] | select(.value <= $row.start_ms) | .key) // (.ends | length)) | .ends[.lane] = $row.end_ms;
      .lane as $lane | $row
      | {name: name, cat: (if has_failed then "failed" else "recipe" end), ph: "X", pid: 1, tid: ($lane + 1),
         ts: ((.start_ms - $zero) * 1000), dur: ((.end_ms - .start_ms) * 1000),
         args: ({status: .status, parent: .parent, cpu_ms: .cpu_ms, peak_kb: .peak_kb} + (if has_failed then {output: output} else {} end))}
        + (if has_failed then {cname: "terrible"} else {} end))]}
