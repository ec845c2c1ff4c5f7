# Makes workflow commands of GitHub Actions: annotations of source lines, and of targets that failed without an error in one.
#     jq -s -r --arg root "$(realpath "$GITHUB_WORKSPACE")" -f github.jq build.jsonl
# GitHub shows ten errors and ten warnings of a step, and 4,096 characters of each. Errors come first.
include "lib" {search: "./"};
def replace($old; $new): split($old) | join($new);
def data: .[:4000] | visible | replace("%"; "%25") | replace("\r"; "%0D") | replace("\n"; "%0A");
def property: data | replace(":"; "%3A") | replace(","; "%2C");
def is_error: .severity != "warning";
(root_failures | select(any(.diagnostics[]; is_error and has_place) | not)
 | "::error title=\(name | property)::\("exit \(.status)\n\(output | .[-3900:])" | data)"),
(findings | sort_by([(is_error | not), .path, .row, .column])[]
 | "::\(if is_error then "error" else "warning" end) file=\(.path | property),line=\([.row, 1] | max)"
   + "\(if .column then ",col=\([.column, 1] | max)" else "" end),title=\(.targets[0] | property)::\(text | data)")
