# Makes a JUnit report, with a test case for each target. GitLab, Jenkins and others read it.
#     jq -s -r -f junit.jq build.jsonl >junit.xml
# A target that failed above another failed one is skipped. Long outputs are cut, as `output` in lib.jq says.
include "lib" {search: "./"};
def xml: visible | @html | if index("\r") then explode | map(if . == 13 then 38, 35, 49, 51, 59 else . end) | implode else . end;
def attribute: xml | split("\n") | join("&#10;") | split("\t") | join("&#9;");
def seconds: if .start_ms and .end_ms then (.end_ms - .start_ms) / 1000 else 0 end;
(reduce root_failures as $one ({}; . + {($one | name): true})) as $failed
| map({name: name, seconds: seconds, status: .status, output: output} + {kind:
    (if .status == null then "unfinished" elif has_failed | not then "passed" elif $failed[name] then "failed" else "above" end)})
| (map(select(.kind == "failed")) | length) as $failures | (map(select(.kind == "unfinished" or .kind == "above")) | length) as $skipped
| "<?xml version=\"1.0\" encoding=\"UTF-8\"?>", "<testsuites>",
  "<testsuite name=\"build\" tests=\"\(length)\" failures=\"\($failures)\" errors=\"0\" skipped=\"\($skipped)\">",
  (.[] | "<testcase classname=\"build\" name=\"\(.name | attribute)\" time=\"\(.seconds)\">"
    + (if .kind == "failed" then "<failure type=\"exit\" message=\"exit \(.status)\">\(.output | xml)</failure>"
       elif .kind == "unfinished" then "<skipped message=\"unfinished\"/>"
       elif .kind == "above" then "<skipped message=\"exit \(.status): a target below failed\"/>" else "" end)
    + (if .kind != "failed" and .output != "" then "<system-err>\(.output | xml)</system-err>" else "" end) + "</testcase>"),
  "</testsuite>", "</testsuites>"
