"""Lines of compilers, linkers and make, the diagnostics in them, lines of more than a million bytes, and keys that occur several times."""

# A line, and its diagnostic: severity, file, row, column, message, flag and key, with `-` for what isn't known; `none` if the line is none.
LINES = [
    # Diagnostics of GCC, Clang, linkers and make, with and without colours; words, places, flags and keys.
    ("a.c:1:10: fatal error: missing.h: No such file or directory",
     "fatal error|a.c|1|10|missing.h: No such file or directory|-|a.c: fatal error: missing.h: No such file or directory"),
    ("b.c:1:45: warning: comparison of integer expressions of different signedness: ‘int’ and ‘unsigned int’ [-Wsign-compare]",
     "warning|b.c|1|45|comparison of integer expressions of different signedness: ‘int’ and ‘unsigned int’|-Wsign-compare|b.c: "
     "warning: comparison of integer expressions of different signedness: ‘int’ and ‘unsigned int’ [-Wsign-compare]"),
    ("b.c:1:70: warning: initialization of ‘char *’ from ‘int’ makes pointer from integer without a cast [-Wint-conversion]",
     "warning|b.c|1|70|initialization of ‘char *’ from ‘int’ makes pointer from integer without a cast|-Wint-conversion|b.c: "
     "warning: initialization of ‘char *’ from ‘int’ makes pointer from integer without a cast [-Wint-conversion]"),
    ("b.c:1:80: error: ‘undeclared’ undeclared (first use in this function)",
     "error|b.c|1|80|‘undeclared’ undeclared (first use in this function)|-|b.c: error: ‘undeclared’ undeclared (first use in this "
     "function)"),
    ("b.c:1:66: warning: unused variable ‘p’ [-Wunused-variable]",
     "warning|b.c|1|66|unused variable ‘p’|-Wunused-variable|b.c: warning: unused variable ‘p’ [-Wunused-variable]"),
    ("b.c:2:22: error: too many arguments to function ‘f’",
     "error|b.c|2|22|too many arguments to function ‘f’|-|b.c: error: too many arguments to function ‘f’"),
    ("b.c:2:29: error: expected ‘;’ before ‘}’ token",
     "error|b.c|2|29|expected ‘;’ before ‘}’ token|-|b.c: error: expected ‘;’ before ‘}’ token"),
    ("b.c:1:92: warning: control reaches end of non-void function [-Wreturn-type]",
     "warning|b.c|1|92|control reaches end of non-void function|-Wreturn-type|b.c: warning: control reaches end of non-void "
     "function [-Wreturn-type]"),
    ("\x1b[01m\x1b[Ka.c:1:10:\x1b[m\x1b[K \x1b[01;31m\x1b[Kfatal error: \x1b[m\x1b[Kmissing.h: No such file or directory",
     "fatal error|a.c|1|10|missing.h: No such file or directory|-|a.c: fatal error: missing.h: No such file or directory"),
    ("\x1b[01m\x1b[Kb.c:1:45:\x1b[m\x1b[K \x1b[01;35m\x1b[Kwarning: \x1b[m\x1b[Kcomparison of integer expressions of different "
     "signedness: ‘\x1b[01m\x1b[Kint\x1b[m\x1b[K’ and ‘\x1b[01m\x1b[Kunsigned int\x1b[m\x1b[K’ "
     "[\x1b[01;35m\x1b[K-Wsign-compare\x1b[m\x1b[K]",
     "warning|b.c|1|45|comparison of integer expressions of different signedness: ‘int’ and ‘unsigned int’|-Wsign-compare|b.c: "
     "warning: comparison of integer expressions of different signedness: ‘int’ and ‘unsigned int’ [-Wsign-compare]"),
    ("\x1b[01m\x1b[Kb.c:1:70:\x1b[m\x1b[K \x1b[01;35m\x1b[Kwarning: \x1b[m\x1b[Kinitialization of ‘\x1b[01m\x1b[Kchar "
     "*\x1b[m\x1b[K’ from ‘\x1b[01m\x1b[Kint\x1b[m\x1b[K’ makes pointer from integer without a cast "
     "[\x1b[01;35m\x1b[K-Wint-conversion\x1b[m\x1b[K]",
     "warning|b.c|1|70|initialization of ‘char *’ from ‘int’ makes pointer from integer without a cast|-Wint-conversion|b.c: "
     "warning: initialization of ‘char *’ from ‘int’ makes pointer from integer without a cast [-Wint-conversion]"),
    ("\x1b[01m\x1b[Kb.c:1:80:\x1b[m\x1b[K \x1b[01;31m\x1b[Kerror: \x1b[m\x1b[K‘\x1b[01m\x1b[Kundeclared\x1b[m\x1b[K’ undeclared "
     "(first use in this function)",
     "error|b.c|1|80|‘undeclared’ undeclared (first use in this function)|-|b.c: error: ‘undeclared’ undeclared (first use in this "
     "function)"),
    ("\x1b[01m\x1b[Kb.c:1:66:\x1b[m\x1b[K \x1b[01;35m\x1b[Kwarning: \x1b[m\x1b[Kunused variable ‘\x1b[01m\x1b[Kp\x1b[m\x1b[K’ "
     "[\x1b[01;35m\x1b[K-Wunused-variable\x1b[m\x1b[K]",
     "warning|b.c|1|66|unused variable ‘p’|-Wunused-variable|b.c: warning: unused variable ‘p’ [-Wunused-variable]"),
    ("\x1b[01m\x1b[Kb.c:2:22:\x1b[m\x1b[K \x1b[01;31m\x1b[Kerror: \x1b[m\x1b[Ktoo many arguments to function "
     "‘\x1b[01m\x1b[Kf\x1b[m\x1b[K’",
     "error|b.c|2|22|too many arguments to function ‘f’|-|b.c: error: too many arguments to function ‘f’"),
    ("\x1b[01m\x1b[Kb.c:2:29:\x1b[m\x1b[K \x1b[01;31m\x1b[Kerror: \x1b[m\x1b[Kexpected ‘\x1b[01m\x1b[K;\x1b[m\x1b[K’ before "
     "‘\x1b[01m\x1b[K}\x1b[m\x1b[K’ token",
     "error|b.c|2|29|expected ‘;’ before ‘}’ token|-|b.c: error: expected ‘;’ before ‘}’ token"),
    ("\x1b[01m\x1b[Kb.c:1:92:\x1b[m\x1b[K \x1b[01;35m\x1b[Kwarning: \x1b[m\x1b[Kcontrol reaches end of non-void function "
     "[\x1b[01;35m\x1b[K-Wreturn-type\x1b[m\x1b[K]",
     "warning|b.c|1|92|control reaches end of non-void function|-Wreturn-type|b.c: warning: control reaches end of non-void "
     "function [-Wreturn-type]"),
    ("collect2: error: ld returned 1 exit status", "error|-|-|-|ld returned 1 exit status|-|collect2: error: ld returned 1 exit status"),
    ("a.c:1:10: fatal error: 'missing.h' file not found",
     "fatal error|a.c|1|10|'missing.h' file not found|-|a.c: fatal error: 'missing.h' file not found"),
    ("b.c:1:66: warning: incompatible integer to pointer conversion initializing 'char *' with an expression of type 'int' "
     "[-Wint-conversion]",
     "warning|b.c|1|66|incompatible integer to pointer conversion initializing 'char *' with an expression of type "
     "'int'|-Wint-conversion|b.c: warning: incompatible integer to pointer conversion initializing 'char *' with an expression of "
     "type 'int' [-Wint-conversion]"),
    ("b.c:1:80: error: use of undeclared identifier 'undeclared'",
     "error|b.c|1|80|use of undeclared identifier 'undeclared'|-|b.c: error: use of undeclared identifier 'undeclared'"),
    ("b.c:1:45: warning: comparison of integers of different signs: 'int' and 'unsigned int' [-Wsign-compare]",
     "warning|b.c|1|45|comparison of integers of different signs: 'int' and 'unsigned int'|-Wsign-compare|b.c: warning: comparison "
     "of integers of different signs: 'int' and 'unsigned int' [-Wsign-compare]"),
    ("b.c:2:27: error: too many arguments to function call, expected single argument 'x', have 2 arguments",
     "error|b.c|2|27|too many arguments to function call, expected single argument 'x', have 2 arguments|-|b.c: error: too many "
     "arguments to function call, expected single argument 'x', have 2 arguments"),
    ("b.c:2:29: error: expected ';' after return statement",
     "error|b.c|2|29|expected ';' after return statement|-|b.c: error: expected ';' after return statement"),
    ("\x1b[1ma.c:1:10: \x1b[0m\x1b[0;1;31mfatal error: \x1b[0m\x1b[1m'missing.h' file not found\x1b[0m",
     "fatal error|a.c|1|10|'missing.h' file not found|-|a.c: fatal error: 'missing.h' file not found"),
    ("\x1b[1mb.c:1:66: \x1b[0m\x1b[0;1;35mwarning: \x1b[0m\x1b[1mincompatible integer to pointer conversion initializing 'char *' "
     "with an expression of type 'int' [-Wint-conversion]\x1b[0m",
     "warning|b.c|1|66|incompatible integer to pointer conversion initializing 'char *' with an expression of type "
     "'int'|-Wint-conversion|b.c: warning: incompatible integer to pointer conversion initializing 'char *' with an expression of "
     "type 'int' [-Wint-conversion]"),
    ("\x1b[0m\x1b[1mb.c:1:80: \x1b[0m\x1b[0;1;31merror: \x1b[0m\x1b[1muse of undeclared identifier 'undeclared'\x1b[0m",
     "error|b.c|1|80|use of undeclared identifier 'undeclared'|-|b.c: error: use of undeclared identifier 'undeclared'"),
    ("\x1b[0m\x1b[1mb.c:1:45: \x1b[0m\x1b[0;1;35mwarning: \x1b[0m\x1b[1mcomparison of integers of different signs: 'int' and "
     "'unsigned int' [-Wsign-compare]\x1b[0m",
     "warning|b.c|1|45|comparison of integers of different signs: 'int' and 'unsigned int'|-Wsign-compare|b.c: warning: comparison "
     "of integers of different signs: 'int' and 'unsigned int' [-Wsign-compare]"),
    ("\x1b[0m\x1b[1mb.c:2:27: \x1b[0m\x1b[0;1;31merror: \x1b[0m\x1b[1mtoo many arguments to function call, expected single argument "
     "'x', have 2 arguments\x1b[0m",
     "error|b.c|2|27|too many arguments to function call, expected single argument 'x', have 2 arguments|-|b.c: error: too many "
     "arguments to function call, expected single argument 'x', have 2 arguments"),
    ("\x1b[0m\x1b[1mb.c:2:29: \x1b[0m\x1b[0;1;31merror: \x1b[0m\x1b[1mexpected ';' after return statement\x1b[0m",
     "error|b.c|2|29|expected ';' after return statement|-|b.c: error: expected ';' after return statement"),
    ("clang: error: linker command failed with exit code 1 (use -v to see invocation)",
     "error|-|-|-|linker command failed with exit code 1 (use -v to see invocation)|-|clang: error: linker command failed with exit "
     "code 1 (use -v to see invocation)"),
    ("Makefile:3: warning: overriding recipe for target 'a'",
     "warning|Makefile|3|-|overriding recipe for target 'a'|-|Makefile: warning: overriding recipe for target 'a'"),
    ("Makefile:2: warning: ignoring old recipe for target 'a'",
     "warning|Makefile|2|-|ignoring old recipe for target 'a'|-|Makefile: warning: ignoring old recipe for target 'a'"),
    ("warning: x", "warning|-|-|-|x|-|: warning: x"),
    ("a warning:", "warning|-|-|-||-|: warning:"),
    ("ld: warning: a.o: x [y] z", "warning|-|-|-|a.o: x [y] z|-|ld: warning: a.o: x [y] z"),
    ("x:1:2: warning: m [-W] ", "warning|x|1|2|m [-W] |-|x: warning: m [-W] "),
    ("x:1234567890: error: m", "error|-|-|-|m|-|x: error: m"),
    ("x:1:1234567890: error: m", "error|-|-|-|m|-|x: error: m"),
    ("x:123456789:123456789: error: m", "error|x|123456789|123456789|m|-|x: error: m"),
    (":1: error: m", "error|-|-|-|m|-|: error: m"),
    ("x:1 error: m: n", "error|-|-|-|m: n|-|x: error: m: n"),
    ("x:a:1: warning: m", "warning|-|-|-|m|-|x: warning: m"),
    ("/usr/bin/ld: /tmp/ccVGBeAi.o: warning: /tmp/cc12345.o /tmp/cc123456.o /cc1234567. /ccabcdef.s",
     "warning|-|-|-|/tmp/cc12345.o /tmp/cc123456.o /cc1234567. /ccabcdef.s|-|/usr/bin/ld: warning: /tmp/cc12345.o /tmp/cc*.o "
     "/cc1234567. /cc*.s"),
    ("xwarning: y", "none"),
    ("warning:y warning: z", "warning|-|-|-|z|-|warning: warning: z"),
    ("a: fatal error: m", "fatal error|-|-|-|m|-|a: fatal error: m"),
    ("a: xfatal error: m", "error|-|-|-|m|-|a: error: m"),
    ("a: warning: error: m", "warning|-|-|-|error: m|-|a: warning: error: m"),
    ("a: error: m [b] [c]", "error|-|-|-|m [b]|c|a: error: m [b] [c]"),
    ("a: error: m [b]c]", "error|-|-|-|m [b]c]|-|a: error: m [b]c]"),
    ("a: error: m[b]", "error|-|-|-|m[b]|-|a: error: m[b]"),
    ("a: error: m []", "error|-|-|-|m []|-|a: error: m []"),
    ("a: error: [b]", "error|-|-|-|[b]|-|a: error: [b]"),
    ("a: error:  [b]", "error|-|-|-||b|a: error:  [b]"),
    ("\x1b[1ma: war\x1b[0mning: m", "warning|-|-|-|m|-|a: warning: m"),
    ("\x1b[mx:1: \x1b[31;1merror: \x1b[Km\x1b[1", "error|x|1|-|m\x1b[1|-|x: error: m\x1b[1"),
    ("\x1b[xa: error: m", "error|-|-|-|m|-|\x1b[xa: error: m"),
    ("a:  warning: b", "warning|-|-|-|b|-|a: warning: b"),
    ("\x1b]8;;https://gcc.gnu.org/x\x07a.c\x1b]8;;\x07:1: warning: m [\x1b]8;;u\x07-W\x1b]8;;\x07]",
     "warning|a.c|1|-|m|-W|a.c: warning: m [-W]"),
    ('  12 |   puts("fatal error: x");', 'error|-|-|-|x");|-|: error: x");'),
    ("[ 3%] warning: m", "warning|-|-|-|m|-|: warning: m"),
    ("a: error: /tmp/cc123456.o/tmp/ccabcdef.o", "error|-|-|-|/tmp/cc123456.o/tmp/ccabcdef.o|-|a: error: /tmp/cc*.o/tmp/cc*.o"),
    ("a: error: /cc/ccaaaaaa.", "error|-|-|-|/cc/ccaaaaaa.|-|a: error: /cc/cc*."),
    ("/tmp/cc123456.o: error: m", "error|-|-|-|m|-|/tmp/cc*.o: error: m"),
    ("::1: error: m", "error|-|-|-|m|-|: error: m"),
    ("a:1:2:3: error: m", "error|-|-|-|m|-|a: error: m"),
    ("a:1:2:error: m", "none"),
    ("a:1:  error: m", "error|-|-|-|m|-|a: error: m"),
    ("a:12: error:", "error|a|12|-||-|a: error:"),
    ("x:1: error: [b] [c", "error|x|1|-|[b] [c|-|x: error: [b] [c"),
    ("\x1b[m\x1b[Kerror: a", "error|-|-|-|a|-|: error: a"),
    # Lines with links, and with what looks like a link.
    ("\x1b]8;;u\x1b\\a: error: m", "error|-|-|-|m|-|a: error: m"),
    ("\x1b]8;;file://host/src/b.c\x07b.c\x1b]8;;\x07:1:2: error: m", "error|b.c|1|2|m|-|b.c: error: m"),
    ("\x1b[01m\x1b[K\x1b]8;;file://host/src/b.c\x07b.c\x1b]8;;\x07:1:2:\x1b[m\x1b[K \x1b[01;31m\x1b[Kerror: \x1b[m\x1b[Km",
     "error|b.c|1|2|m|-|b.c: error: m"),
    ("\x1b]8;;file://host/src/b.c\x1b\\b.c\x1b]8;;\x1b\\:1:2: error: m", "error|b.c|1|2|m|-|b.c: error: m"),
    ("\x1b]8;id=x;file://host/src/b.c\x07b.c\x1b]8;;\x07:1: warning: m", "warning|b.c|1|-|m|-|b.c: warning: m"),
    ("\x1b]8;id=x:y=z;file://host/src/b.c\x1b\\b.c\x1b]8;;\x1b\\:1:2: fatal error: m", "fatal error|b.c|1|2|m|-|b.c: fatal error: m"),
    ("a: warning: m [\x1b]8;;https://gcc.gnu.org/-W;x\x07-Wx\x1b]8;;\x1b\\]", "warning|-|-|-|m|-Wx|a: warning: m [-Wx]"),
    ("a: war\x1b]8;;\x1b\\ning: m", "warning|-|-|-|m|-|a: warning: m"),
    ("\x1b]8;;file://host/src/b.c b.c:1:2: error: m", "error|-|-|-|m|-|\x1b]8;;file: error: m"),
    ("\x1b]8;;u\x1b[1m\x07a: error: m", "error|-|-|-|m|-|\x1b]8;;u\x07a: error: m"),
    ("\x1b]8;;u\x1b]a: error: m", "error|-|-|-|m|-|\x1b]8;;u\x1b]a: error: m"),
    ("\x1b]8;;u\x07\x1b]8;;u x\x07a: error: m", "error|-|-|-|m|-|\x1b]8;;u x\x07a: error: m"),
    ("\x1b]8;;é\x07a: error: m", "error|-|-|-|m|-|\x1b]8;;é\x07a: error: m"),
    ("\x1b]8;;\x7f\x07a: error: m", "error|-|-|-|m|-|\x1b]8;;\x7f\x07a: error: m"),
    ("\x1b]8;u\x07a: error: m", "error|-|-|-|m|-|\x1b]8;u\x07a: error: m"),
    ("\x1b]9;;u\x07a: error: m", "error|-|-|-|m|-|\x1b]9;;u\x07a: error: m"),
    ("\x1b]8;;u\x07a: error: m\x1b]8;;u\x1b", "error|-|-|-|m\x1b]8;;u\x1b|-|a: error: m\x1b]8;;u\x1b"),
]  # fmt: skip


def diagnostic(fields):
    """The values of a diagnostic in the form of worked_builds.py."""
    if fields == "none":
        return None
    severity, file, row, column, message, flag, key = fields.split("|")
    texts, numbers = ([None if field == "-" else field for field in pair] for pair in ((file, flag), (row, column)))
    file, flag = (text and text.encode() for text in texts)
    row, column = (number and int(number) for number in numbers)
    return severity, file, row, column, message.encode(), flag, key.encode()


DIAGNOSTICS = [(line.encode(), diagnostic(fields)) for line, fields in LINES]

# What a long line repeats after a colon and a space, 100,000 times, and whether it is a diagnostic.
REPEATED = [
    (b"warning:", False),
    (b"error: ", True),
    (b"fatal error:x", False),
    (b" warning", False),
    (b"/cc", False),
    (b"\x1b[", False),
    (b"\x1b[1", False),
    (b"\x1b]8;;", False),
    (b"\x1b]8;;u\x07", False),
    (b"\x1b]8;id=1;u\x1b\\", False),
    (b"\x1b[m", False),
    (b"9", False),
    (b":", False),
    (b" [", False),
    (b"warning: [", True),
]
TIMES = 100_000

# Lines of a log, the key of each one, and how many lines before it have the same key.
COUNTED = [
    (b"a: error:", b"a: error:", 0),
    (b"b: error:", b"b: error:", 0),
    (b"a: error:", b"a: error:", 1),
    (b"error:", b": error:", 0),
    (b"a: error:", b"a: error:", 2),
    (b"b: error:", b"b: error:", 1),
    (b"error:", b": error:", 1),
]
