# Makes a code quality report of GitLab, which shows the findings of a merge request that its target branch doesn't have.
#     jq -s --arg root "$(realpath "$CI_PROJECT_DIR")" -f gitlab.jq build.jsonl >gl-code-quality-report.json
# It has the diagnostics in files of the project. No two have the same fingerprint, and a fingerprint doesn't depend on the row.
include "lib" {search: "./"};
[findings[] | select(.path | startswith("/") or startswith("../") or . == ".." | not)
 | {description: text, check_name: (.flag // .severity), severity: (if .severity == "warning" then "minor" else "critical" end),
    fingerprint: ([.path, .key, .nth] | tojson | @base64), location: {path: .path, lines: {begin: ([.row, 1] | max)}}}]
