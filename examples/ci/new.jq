# Prints the warnings and errors that NEW has and OLD hasn't, and the targets that fail only in NEW. The status is 1 if there are any.
#     jq -n -r --arg root "$(pwd -P)" --slurpfile old OLD.jsonl --slurpfile new NEW.jsonl -f new.jq
# All warnings of a target that OLD lacks are new. Keys decide how many are new, and the source lines that compilers print decide which.
# So code that moved isn't new, unless the message itself has a row. What several targets print about one place is one line.
include "lib" {search: "./"};
# The diagnostics of a target, each with the source line that follows it, if there is one.
def diagnostics: . as $row | [.diagnostics[] | {target: ($row | name), key: [.key, .key_base64], exact: [.file_base64, .key_base64],
  source: ((($row.lines[.line + 1] // "") | .[:2000] | plain | capture("\\A *[0-9]+ \\| *(?<source>.*?) *\\z").source) // ""),
  shown: (if has_place then (.file | path_from_root($row.directory)) + ":\(.row)\(if .column then ":\(.column)" else "" end): "
    + "\(.severity): \(text | .[:2000])" else $row.lines[.line] | .[:2000] | plain end)}];
# The list without what $others has, by what f says. Of equal ones, as many remain, at the end, as the others lack.
def without($others; f):
  [($others[] | {id: f}), (to_entries[] | {id: (.value | f), place: .key, own: .value})] | group_by(.id)
  | map(([.[] | select(.own == null)] | length) as $count | map(select(.own))[$count:][]) | sort_by(.place) | map(.own);
def new_since($old): . as $new | without($old; [.key, .source]) | without($old | without($new; [.key, .source]); .key);
(reduce $old[] as $row ({}; . + {($row | id): $row})) as $before
| [$new[] | ($before[id] // {diagnostics: []} | diagnostics) as $old | diagnostics | new_since($old)[]]
| [to_entries | group_by(.value | [.shown, .exact]) | sort_by(.[0].key)[] | map(.value)
   | "\(.[0].shown) (\(map(.target) | unique | if length > 10 then .[:10] + ["and \(length - 10) more"] else . end | join(", ")))"]
  + [$new | root_failures | select($before[id] // {} | has_failed | not) | "\(name) fails (exit \(.status))"]
| (.[] | visible | split("\r") | join("\u240d")), if . == [] then empty else "" | halt_error(1) end
