# Makes compile_commands.json, for clangd, cppcheck and others, from the commands of a capture with `redo-log-capture --commands`.
#     jq -s --arg base "$(pwd -P)" -f compile_commands.jq build.jsonl >compile_commands.json
# `--arg base DIR` says where the build began. What only a shell knows is left out: sources that variables, patterns or loops name, what
# follows the first line of a here-document, and what a shell runs after `pushd`, or after both `cd` and `|` or `&`.
include "lib" {search: "./"};
# The commands in a script, each with the separator before it, and its words as they are written, without redirections.
def simple_commands:
  "(?:\\\\.|'[^']*'|\"(?:\\\\.|[^\"\\\\])*\"|`[^`]*`|\\$\\([^()]*\\)|[^\\s;&|<>()'\"`\\\\])+" as $word
  | split("\\\n") | join("") | sub("(?<line>(?<!<)<<(?!<).*)\\n(?s:.*)"; .line)
  | reduce scan("#[^\\n]*|[0-9]*[<>]+[&|]?[ \\t]*\($word)|\($word)|&&|\\|\\||[;&|()\\n]") as $token
      ([{words: []}]; if $token | test("\\A[;&|()\\n]") then . + [{separator: $token, words: []}]
             elif $token | test("\\A(#|[0-9]*[<>])") then . else .[-1].words += [$token] end) | .[];
# A word as the command gets it. Automake's words have `test -f FILE || echo DIRECTORY`, which prints the directory.
def unquoted:
  if test("['\"\\\\`]") then [scan("\\\\.|'[^']*'|\"(?:\\\\.|[^\"\\\\])*\"|`[^`]*`|[^\\\\'\"`]+")
    | if startswith("'") then .[1:-1] elif startswith("\"") then .[1:-1] | gsub("\\\\(?<byte>[\"\\\\$`])"; .byte)
      elif startswith("\\") then .[1:] elif startswith("`") then (capture("echo '?(?<echoed>[^'`]*)'?`$").echoed // .)
      else . end] | join("")
  else . end;
def is_pattern: test("[$`*?\\[{]|\\A~");
# A command without what may precede a compiler: reserved words, assignments, and programs that run others, with their options.
def bare:
  "ccache|command|depcomp|distcc|env|exec|icecc|[\\w-]*libtool|nice|nohup|sccache|(ba|da)?sh|time" as $programs
  | if .[0] // "" | unquoted | test("\\A(-|\\w+=|([{!0-9]+|if|then|elif|else|while|until|do|(.*/)?(\($programs)))\\z)")
    then .[1:] | bare else . end;
# The words of a command, if it is a compiler.
def compilation:
  select(.[0] // "" | unquoted | test("\\A(.*[/-])?(cc|gcc|g\\+\\+|c\\+\\+|clang|clang\\+\\+|c99|c11)(-[0-9.]+)?\\z"))
  | map(unquoted) | select(any(IN("-E", "-M", "-MM")) | not);
# The words that follow one for which f holds.
def after(f): range(1; length) as $at | select(.[$at - 1] | f) | .[$at];
def sources:
  after(test("\\A-(o|M[FTQ]|i[a-z-]+|X.+|[ADILTUluxz]|-param|arch|target|mllvm|wrapper)\\z") | not)
  | select((startswith("-") or is_pattern | not) and test("\\.([cCmMS]|cc|CC|cp|c(pp|xx|\\+\\+)|C(PP|XX)|mm|sx)\\z"));
# For each shell that runs: where it is, whether `cd` changed that, and whether it has `|` or `&`.
[.[] | .directory as $directory | .commands[]
 | foreach (simple_commands | .words |= bare) as {$separator, $words} ([{now: $directory}];
     if $separator == "(" then . + [last | {now}] elif $separator == ")" and length > 1 then .[:-1] else . end
     | .[-1] |= (if $separator | IN("|", "&") then .forks = true else . end
         | if $words[0] | IN("cd", "pushd", "popd") | not then .
           elif $words[0] != "cd" or ($words | length) != 2 or .now == false or ($words[1] | test("\\A-") or is_pattern) then .now = false
           else .moves = true | .now as $now | .now = ($words[1] | unquoted | in_directory($now)) end
         | if .forks and .moves then .now = false else . end);
     last.now | select(. != false) as $now | $words | compilation
     | {directory: ("." | absolute_path($now)), arguments: ., file: sources} + ([after(. == "-o") | {output: .}][0] // {}))]
