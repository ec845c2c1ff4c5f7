# What the other scripts share. Their input is the objects of redo-log-json, as a list. They need jq 1.6 or newer. With jq 1.6, joining and
# replacing take quadratic time, so long texts are cut first.

# The name of a target. If it isn't UTF-8, its bytes in Base64 follow, because another target may have the same text.
def name: .target + (if .target_base64 then " [\(.target_base64)]" else "" end);
def id: [.target, .target_base64] | tojson;
def has_failed: .status != null and .status != 0;
# The failed targets that no failed target is below.
def root_failures:
  (reduce reverse[] as $one ({};
    if ($one | has_failed) or .[$one | id] then . + {([$one.parent, $one.parent_base64] | tojson): true} else . end)) as $has_failure_below
  | .[] | select(has_failed and ($has_failure_below[id] | not));

# Text without the sequences by which compilers set colours and links.
def plain: if index("\u001b") then gsub("\u001b(?:\\[[0-9;]*[mK]|\\]8;[!-~]*;[!-~]*(?:\u0007|\u001b\\\\))"; "") else . end;
# Control characters as pictures, except tab, line feed and carriage return.
def visible:
  if test("[\\x00-\\x08\\x0b\\x0c\\x0e-\\x1f\\x{7f}-\\x{9f}\\x{fffe}\\x{ffff}]") then
    explode | map(if . == 9 or . == 10 or . == 13 then . elif . < 32 then . + 9216 elif . == 127 then 9249
      elif . < 160 and . > 127 or . == 65534 or . == 65535 then 65533 else . end) | implode
  else . end;
# What a target printed: the first 100 lines and the last 400, and 2,000 characters of each.
def output:
  .lines | if length > 500 then .[:100] + ["[\(length - 500) lines are left out]"] + .[-400:] else . end
  | map(if length > 2000 then .[:2000] + " [cut]" else . end | plain) | join("\n") | visible;

# A path without `.`, `..` and doubled slashes.
def normal_path:
  startswith("/") as $is_absolute
  | reduce (split("/")[] | select(. != "" and . != ".")) as $part
      ([]; if $part != ".." or .[-1] == ".." or ($is_absolute or length > 0 | not) then . + [$part] else .[:-1] end)
  | (if $is_absolute then "/" else "" end) + join("/") | if . == "" then "." else . end;
def in_directory($directory): if startswith("/") or $directory == null then . else "\($directory)/\(.)" end;
def absolute_path($directory): in_directory($directory) | in_directory($ARGS.named.base // $ARGS.named.root) | normal_path;
# A path, relative to the root if below it. `--arg root DIR` names the root, `--arg base DIR` where the build began, both without links.
def path_from_root($directory): ($ARGS.named.root // $ARGS.named.base) as $root
  | absolute_path($directory) | if $root then ltrimstr(($root | normal_path | rtrimstr("/")) + "/") else . end;

# Whether a diagnostic has a place. No path is longer than 4,096 bytes.
def has_place: .file != null and (.file | length) <= 4096;
# The text of a diagnostic after `warning:` or `error:`.
def text: .message + (if .flag then " [\(.flag)]" else "" end);
# The diagnostics that have a place, with their paths. What several targets print about one place is one finding. `key` is without the
# file, and `nth` is the number of a finding among those with the same path and key. Bytes that aren't UTF-8 also tell findings apart.
def findings:
  [.[] | .directory as $directory | name as $target | .diagnostics[] | select(has_place)
   | . + {target: $target, path: .file | path_from_root($directory), key: (.file as $file | .key | ltrimstr($file))}]
  | group_by([.path, .key, .row, .column, .file_base64, .key_base64]) | map(.[0] + {targets: map(.target) | unique})
  | group_by([.path, .key]) | map(to_entries[] | .value + {nth: .key});
