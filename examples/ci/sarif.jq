# Makes a SARIF 2.1.0 report of diagnostics that have a place, for GitHub's code scanning, editors and others.
#     jq -s --arg root "$(pwd -P)" -f sarif.jq build.jsonl >build.sarif
include "lib" {search: "./"};
def rule: .flag // .severity;
def uri: (if startswith("/") then "file://" else "" end) + (split("/") | map(@uri) | join("/"));
# Rows and columns begin with 1.
def region: if .row == 0 then {} else {region: ({startLine: .row} + (if (.column // 0) > 0 then {startColumn: .column} else {} end))} end;
findings as $all
| {"$schema": "https://json.schemastore.org/sarif-2.1.0.json", version: "2.1.0", runs: [{
    tool: {driver: {name: "redo-log", rules: [$all | map(rule) | unique[] | {id: .}]}},
    results: [$all[] | {
      ruleId: rule, level: (if .severity == "warning" then "warning" else "error" end), message: {text: text},
      partialFingerprints: {"redoLogKey/v1": ([.key, .nth] | tojson)},
      locations: [{
        physicalLocation: ({artifactLocation: {uri: .path | uri}} + region),
        logicalLocations: [.targets[] | {fullyQualifiedName: .}]}]}]}]}
