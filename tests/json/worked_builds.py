"""Captures whose JSON was written by hand, and diagnostics that were worked out by hand, from the rules alone."""


def record(kind, text, time="1", pid=7):
    return b"@@REDO:%s:%d:%s@@ %s\n" % (kind.encode(), pid, time.encode(), text if isinstance(text, bytes) else text.encode())


def json(text):
    """The bytes of JSON. A line that begins with a space continues the line before; two words stand for members that many objects have."""
    unknown = '"start_ms":null,"end_ms":null,"cpu_ms":null,"peak_kb":null,"directory":null,"commands":[]'
    joined = text.strip("\n").replace("\n ", "").replace("UNKNOWN", unknown).replace("EMPTY", '"lines":[],"diagnostics":[],"baseline":null')
    return joined.encode() + b"\n"


# Since the earlier build, a warning moved, an equal one before it is new, and another one is gone. `a` fails, `b` is fixed, `c` is new.
REBUILT = {
    "names": b"1 all\n2 a\n3 b\n4 c\n",
    "log.1": record("do", "a", pid=5) + record("do", "b", pid=5) + record("do", "c", pid=5) + record("done", "2 all", pid=5),
    "log.2": b"a.c:1:5: warning: x\n    1 | int h;\na.c:7:5: warning: x\n    7 | int i;\n" + record("done", "1 a", pid=6),
    "log.3": record("done", "0 b"),
    "log.4": b"error: \xff\n",
}
# A build whose JSON is short, in the form of the table below.
SMALL = (
    "a beginning without an end, names that are no UTF-8, and facts of another log",
    {
        "names": b"1 all\n",
        "log.1": b"caf\xe9\n" + record("do", b"x\xff") + record("unchanged", "y", pid=8) + record("waiting", b"x\xff")
        + record("locked", "y") + record("done", "0 z") + record("do", "all", "1000000000"),
        "facts": b"1 log other\n1 directory /d\n",
    },
    [b"--", b"all"],
    json("""
{"target":"all","parent":null,"status":null,"start_ms":1000000000000,"end_ms":null,"cpu_ms":null,"peak_kb":null,"directory":null,
 "commands":[],"needs":["x\ufffd","y"],"needs_base64":{"0":"eP8="},"lines":["caf\ufffd"],"lines_base64":{"0":"Y2Fm6Q=="},"diagnostics":[],
 "baseline":null}
"""),
)
# What it shows, the files, the words, and the JSON.
BUILDS = [
    (
        "a listed target without a log, and no facts",
        {"names": b"1 all\n"},
        [b"--"],
        json('{"target":"all","parent":null,"status":null,UNKNOWN,"needs":[],EMPTY}'),
    ),
    (
        "a compiler's error, with times and facts",
        {
            "names": b"1 all\n2 lib/a.o\n",
            "log.1": record("do", "lib/a.o", "1795869824.764") + record("done", "1 lib/a.o", "1795869826.1629") + record("done", "2 all"),
            "log.2": "a.c:3:4: error: expected ‘;’\n".encode() + record("done", "1 a.o"),
            "facts": b"2 log lib/a.o\n2 directory lib\n2 command gcc -c -o a.o a.c\n2 usage 60 20 28228\n",
        },
        [b"--"],
        json("""
{"target":"all","parent":null,"status":2,UNKNOWN,"needs":["lib/a.o"],EMPTY}
{"target":"lib/a.o","parent":"all","status":1,"start_ms":1795869824764,"end_ms":1795869826162,"cpu_ms":80,"peak_kb":28228,
 "directory":"lib","commands":["gcc -c -o a.o a.c"],"needs":[],"lines":["a.c:3:4: error: expected ‘;’"],"diagnostics":[
 {"line":0,"severity":"error","file":"a.c","row":3,"column":4,"message":"expected ‘;’","flag":null,
 "key":"a.c: error: expected ‘;’","nth":0,"new":null}],"baseline":null}
"""),
    ),
    (
        "bytes that are no UTF-8, in every member that has bytes",
        {
            "names": b"1 all\n2 x\xc3\n3 \xff\n",
            "log.1": b"caf\xe9\nplain\n" + record("do", b"x\xc3") + b"\xed\xa0\x80\n\xf0\x9f\x9a\n",
            "log.2": b"\xfe.c:1: warning: \xf1 [\xf2]\n" + record("waiting", b"\xff"),
            "facts": b"2 log x\xc3\n2 directory /\xff\n2 command a\n2 command \x80\n2 more b\n",
        },
        [b"--every", b"--", b"all"],
        json("""
{"target":"all","parent":null,"status":null,UNKNOWN,"needs":["x\ufffd"],"needs_base64":{"0":"eMM="},"lines":["caf\ufffd","plain",
 "\ufffd\ufffd\ufffd","\ufffd"],"lines_base64":{"0":"Y2Fm6Q==","2":"7aCA","3":"8J+a"},"diagnostics":[],"baseline":null}
{"target":"x\ufffd","target_base64":"eMM=","parent":"all","status":null,"start_ms":null,"end_ms":null,"cpu_ms":null,"peak_kb":null,
 "directory":"/\ufffd","directory_base64":"L/8=","commands":["a","\ufffd\\nb"],"commands_base64":{"1":"gApi"},"needs":["\ufffd"],
 "needs_base64":{"0":"/w=="},"lines":["\ufffd.c:1: warning: \ufffd [\ufffd]"],"lines_base64":{"0":"/i5jOjE6IHdhcm5pbmc6IPEgW/Jd"},
 "diagnostics":[
 {"line":0,"severity":"warning","file":"\ufffd.c","file_base64":"/i5j","row":1,"column":null,"message":"\ufffd","message_base64":"8Q==",
 "flag":"\ufffd","flag_base64":"8g==","key":"\ufffd.c: warning: \ufffd [\ufffd]","key_base64":"/i5jOiB3YXJuaW5nOiDxIFvyXQ==","nth":0,
 "new":null}],"baseline":null}
{"target":"\ufffd","target_base64":"/w==","parent":"x\ufffd","parent_base64":"eMM=","status":null,UNKNOWN,"needs":[],EMPTY}
"""),
    ),
    (
        "characters that JSON escapes, and others",
        {
            "names": b'1 "\\\n',
            "log.1": b"\x00\x01\x08\t\x0b\x0c\r\x1b\x1f \x7f\n/<&>\xe2\x80\xa8\xef\xbf\xbf\xf0\x9f\x98\x80\xef\xbf\xbd\n\nend",
        },
        [b"--", b'"\\'],
        json("""
{"target":"\\"\\\\","parent":null,"status":null,UNKNOWN,"needs":[],"lines":["\\u0000\\u0001\\b\\t\\u000b\\f\\r\\u001b\\u001f \x7f",
 "/<&>\u2028\uffff\U0001f600\ufffd","","end"],"diagnostics":[],"baseline":null}
"""),
    ),
    (
        "a target that needed no rebuild has no object",
        {"names": b"1 all\n2 a\n", "log.1": record("unchanged", "a"), "log.2": b"old\n"},
        [b"--"],
        json('{"target":"all","parent":null,"status":null,UNKNOWN,"needs":["a"],EMPTY}'),
    ),
    (
        "with -u it has one, opened by the log that mentions it",
        {"names": b"1 all\n2 a\n", "log.1": record("unchanged", "a"), "log.2": b"old\n"},
        [b"-u", b"--"],
        json("""
{"target":"all","parent":null,"status":null,UNKNOWN,"needs":["a"],EMPTY}
{"target":"a","parent":"all","status":null,UNKNOWN,"needs":[],"lines":["old"],"diagnostics":[],"baseline":null}
"""),
    ),
    (
        "with --every it has one without a parent; the others follow in the order of the index",
        {
            "names": b"3 z\n1 all\n9 d/b\n2 a\n",
            "log.1": record("unchanged", "a") + record("do", "d/b"),
            "log.9": record("waiting", "../all"),
        },
        [b"--every", b"--", b"./all", b"all"],
        json("""
{"target":"all","parent":null,"status":null,UNKNOWN,"needs":["a","d/b"],EMPTY}
{"target":"d/b","parent":"all","status":null,UNKNOWN,"needs":["all"],EMPTY}
{"target":"z","parent":null,"status":null,UNKNOWN,"needs":[],EMPTY}
{"target":"a","parent":null,"status":null,UNKNOWN,"needs":[],EMPTY}
"""),
    ),
    (
        "what a log needs: each other target that it mentions, once, listed or not",
        {
            "names": b"1 all\n2 d/a\n",
            "log.1": record("locked", "x") + record("unlocked", "x") + record("do", "d//a") + record("done", "0 y") + record("check", "z")
            + record("waiting", "./x") + record("do", "d/a"),
            "log.2": record("do", "a") + record("unchanged", "b") + record("do", "../x") + record("waiting", "../d/a") + record("do", "/e"),
        },
        [b"--"],
        json("""
{"target":"all","parent":null,"status":null,UNKNOWN,"needs":["x","d/a"],EMPTY}
{"target":"d/a","parent":"all","status":null,UNKNOWN,"needs":["d/b","x","/e"],EMPTY}
"""),
    ),
    (
        "a status is that of the closing record, otherwise that of the first record in another opened log",
        {
            "names": b"1 all\n2 a\n3 b\n4 c\n5 d\n",
            "log.1": record("do", "a") + record("done", "3 a") + record("do", "b") + record("done", "-11 b") + record("done", "0 b")
            + record("do", "c"),
            "log.2": record("done", "0000 a"),
            "log.4": record("done", "-0 c"),
            "log.5": record("done", "5 c"),
        },
        [b"--"],
        json("""
{"target":"all","parent":null,"status":null,UNKNOWN,"needs":["a","b","c"],EMPTY}
{"target":"a","parent":"all","status":0,UNKNOWN,"needs":[],EMPTY}
{"target":"b","parent":"all","status":-11,UNKNOWN,"needs":[],EMPTY}
{"target":"c","parent":"all","status":0,UNKNOWN,"needs":[],EMPTY}
"""),
    ),
    (
        "the largest numbers",
        {
            "names": b"999999999 all\n",
            "log.999999999": record("do", "x", "9999999999.9991") + record("done", "-999999999 all", "00000000009999999999.9999"),
            "facts": b"999999999 log all\n999999999 usage 999999999999999 999999999999999 999999999999999\n",
        },
        [b"--"],
        json("""
{"target":"all","parent":null,"status":-999999999,"start_ms":null,"end_ms":9999999999999,"cpu_ms":1999999999999998,
 "peak_kb":999999999999999,"directory":null,"commands":[],"needs":["x"],EMPTY}
"""),
    ),
    (
        "an unknown end, an unknown beginning, and a beginning after the end",
        {
            "names": b"1 a\n2 b\n3 c\n4 all\n",
            "log.1": record("done", "0 a", "1000000000"),
            "log.2": record("done", "0 b", "999999999.9"),
            "log.3": record("done", "0 c", "1600000000"),
            "log.4": record("do", "b", "1600000000.05") + record("do", "c", "1600000001"),
        },
        [b"--", b"b", b"a", b"c"],
        json("""
{"target":"b","parent":null,"status":0,"start_ms":1600000000050,"end_ms":null,"cpu_ms":null,"peak_kb":null,"directory":null,
 "commands":[],"needs":[],EMPTY}
{"target":"a","parent":null,"status":0,"start_ms":null,"end_ms":1000000000000,"cpu_ms":null,"peak_kb":null,"directory":null,
 "commands":[],"needs":[],EMPTY}
{"target":"c","parent":null,"status":0,"start_ms":null,"end_ms":1600000000000,"cpu_ms":null,"peak_kb":null,"directory":null,
 "commands":[],"needs":[],EMPTY}
"""),
    ),
    (
        "facts of an earlier log, of another target, and in an unended line",
        {
            "names": b"1 a\n2 b\n3 c\n",
            "facts": b"1 log old\n1 directory x\n1 command y\n2 log b\n2 directory p\n1 log ./a\n2 command one\n1 usage 0 0 1\n"
            b"3 command z\n3 log c\n3 more lost\n3 directory .\n2 log b \n3 usage 1 2 3",
        },
        [b"--", b"a", b"b", b"c"],
        json("""
{"target":"a","parent":null,"status":null,"start_ms":null,"end_ms":null,"cpu_ms":0,"peak_kb":1,"directory":null,"commands":[],
 "needs":[],EMPTY}
{"target":"b","parent":null,"status":null,UNKNOWN,"needs":[],EMPTY}
{"target":"c","parent":null,"status":null,"start_ms":null,"end_ms":null,"cpu_ms":null,"peak_kb":null,"directory":".","commands":[],
 "needs":[],EMPTY}
"""),
    ),
    (
        "commands of several lines; one that isn't whole is left out",
        {
            "names": b"7 a",
            "facts": b"7 log a\n7 directory p\n7 command one\n7 more \n7 more  two\n7 command \n7 truncated cut\n7 more off\n"
            b"7 directory q r\n",
        },
        [b"--", b"a"],
        json("""
{"target":"a","parent":null,"status":null,"start_ms":null,"end_ms":null,"cpu_ms":null,"peak_kb":null,"directory":"q r",
 "commands":["one\\n\\n two",""],"needs":[],EMPTY}
"""),
    ),
    (
        "diagnostics with one key are numbered in each log; a text line counts as a line, and a record doesn't",
        {
            "names": b"1 all\n2 b\n",
            "log.1": b"a.c:1:2: warning: x [-Wx]\nIn function f\n" + record("do", "b") + b"a.c:9: warning: x [-Wx]\na.c: warning: x [-Wy]\n"
            b"a.c:9: warning: x [-Wx]",
            "log.2": b"a.c:1: warning: x [-Wx]\n",
        },
        [b"--"],
        json("""
{"target":"all","parent":null,"status":null,UNKNOWN,"needs":["b"],
 "lines":["a.c:1:2: warning: x [-Wx]","In function f","a.c:9: warning: x [-Wx]","a.c: warning: x [-Wy]","a.c:9: warning: x [-Wx]"],
 "diagnostics":[
 {"line":0,"severity":"warning","file":"a.c","row":1,"column":2,"message":"x","flag":"-Wx","key":"a.c: warning: x [-Wx]","nth":0,
 "new":null},
 {"line":2,"severity":"warning","file":"a.c","row":9,"column":null,"message":"x","flag":"-Wx","key":"a.c: warning: x [-Wx]","nth":1,
 "new":null},
 {"line":3,"severity":"warning","file":null,"row":null,"column":null,"message":"x","flag":"-Wy","key":"a.c: warning: x [-Wy]","nth":0,
 "new":null},
 {"line":4,"severity":"warning","file":"a.c","row":9,"column":null,"message":"x","flag":"-Wx","key":"a.c: warning: x [-Wx]","nth":2,
 "new":null}],"baseline":null}
{"target":"b","parent":"all","status":null,UNKNOWN,"needs":[],"lines":["a.c:1: warning: x [-Wx]"],"diagnostics":[
 {"line":0,"severity":"warning","file":"a.c","row":1,"column":null,"message":"x","flag":"-Wx","key":"a.c: warning: x [-Wx]","nth":0,
 "new":null}],"baseline":null}
"""),
    ),
    (
        "no log is opened twice",
        {"names": b"1 a\n2 b\n", "log.1": record("do", "b") + b"t\n", "log.2": record("do", "a")},
        [b"--", b"b", b"a", b"b/"],
        json("""
{"target":"b","parent":null,"status":null,UNKNOWN,"needs":["a"],EMPTY}
{"target":"a","parent":"b","status":null,UNKNOWN,"needs":["b"],"lines":["t"],"diagnostics":[],"baseline":null}
"""),
    ),
    (
        "a baseline: warnings that are known by their source lines, by their key, and new; gone, newly failing, fixed and new targets",
        {
            "names": b"1 all\n2 a\n3 b\n4 c\n",
            "log.1": record("do", "a") + record("do", "b") + record("do", "c") + record("done", "2 all"),
            "log.2": b"a.c:1: warning: x\n  1 | int h;\na.c:7: warning: x\n  7 | int i;\na.c:9: warning: x\nend\n" + record("done", "1 a"),
            "log.3": record("done", "0 b"),
            "log.4": b"error: y\n",
            "before": None,
            "before/names": b"5 a\n6 b\n7 all\n8 d\n",
            "before/log.5": b"a.c:1: warning: x\n1 |int i;\na.c:3: warning: z\na.c:4: warning: x\n 4 | int j;\n" + record("done", "0 a"),
            "before/log.6": b"error: w\n" + record("done", "2 b"),
            "before/log.7": record("do", "a") + record("do", "b") + record("done", "2 all"),
            "before/log.8": b"error: v\n" + record("done", "1 d"),
        },
        [b"--baseline=before", b"--"],
        json("""
{"target":"all","parent":null,"status":2,UNKNOWN,"needs":["a","b","c"],"lines":[],"diagnostics":[],
 "baseline":{"built":true,"gone":0,"newly_fails":false,"fixed":false}}
{"target":"a","parent":"all","status":1,UNKNOWN,"needs":[],
 "lines":["a.c:1: warning: x","  1 | int h;","a.c:7: warning: x","  7 | int i;","a.c:9: warning: x","end"],"diagnostics":[
 {"line":0,"severity":"warning","file":"a.c","row":1,"column":null,"message":"x","flag":null,"key":"a.c: warning: x","nth":0,"new":false},
 {"line":2,"severity":"warning","file":"a.c","row":7,"column":null,"message":"x","flag":null,"key":"a.c: warning: x","nth":1,"new":false},
 {"line":4,"severity":"warning","file":"a.c","row":9,"column":null,"message":"x","flag":null,"key":"a.c: warning: x","nth":2,"new":true}],
 "baseline":{"built":true,"gone":1,"newly_fails":true,"fixed":false}}
{"target":"b","parent":"all","status":0,UNKNOWN,"needs":[],"lines":[],"diagnostics":[],
 "baseline":{"built":true,"gone":1,"newly_fails":false,"fixed":true}}
{"target":"c","parent":"all","status":null,UNKNOWN,"needs":[],"lines":["error: y"],"diagnostics":[
 {"line":0,"severity":"error","file":null,"row":null,"column":null,"message":"y","flag":null,"key":": error: y","nth":0,"new":true}],
 "baseline":{"built":false,"gone":0,"newly_fails":false,"fixed":false}}
"""),
    ),
    (
        "the same capture as baseline",
        {"names": b"1 all\n", "log.1": b"error: y\nerror: y\n" + record("done", "1 all")},
        [b"--baseline=.", b"--"],
        json("""
{"target":"all","parent":null,"status":1,UNKNOWN,"needs":[],"lines":["error: y","error: y"],"diagnostics":[
 {"line":0,"severity":"error","file":null,"row":null,"column":null,"message":"y","flag":null,"key":": error: y","nth":0,"new":false},
 {"line":1,"severity":"error","file":null,"row":null,"column":null,"message":"y","flag":null,"key":": error: y","nth":1,"new":false}],
 "baseline":{"built":true,"gone":0,"newly_fails":false,"fixed":false}}
"""),
    ),
    (
        "a compiler's error below a target without times",
        {
            "names": b"1 all\n2 file.o\n",
            "log.1": record("do", "file.o") + record("done", "1 file.o") + record("done", "1 all"),
            "log.2": record("do", "file.o", "1795869824.764")
            + "file.c: In function ‘f’:\nfile.c:870:38: error: expected ‘;’ before ‘}’ token\n".encode()
            + record("done", "1 file.o", "1795869826.162"),
            "facts": b"2 log file.o\n2 directory .\n2 command gcc .. -c -o file.o file.c\n2 usage 60 20 28228\n",
        },
        [b"--", b"all"],
        json("""
{"target":"all","parent":null,"status":1,UNKNOWN,"needs":["file.o"],EMPTY}
{"target":"file.o","parent":"all","status":1,"start_ms":1795869824764,"end_ms":1795869826162,"cpu_ms":80,"peak_kb":28228,"directory":".",
 "commands":["gcc .. -c -o file.o file.c"],"needs":[],"lines":["file.c: In function ‘f’:",
 "file.c:870:38: error: expected ‘;’ before ‘}’ token"],"diagnostics":[
 {"line":1,"severity":"error","file":"file.c","row":870,"column":38,"message":"expected ‘;’ before ‘}’ token","flag":null,
 "key":"file.c: error: expected ‘;’ before ‘}’ token","nth":0,"new":null}],"baseline":null}
"""),
    ),
    SMALL,
    (
        "several requested targets, logs in logs, an empty line, a flag that is no UTF-8, and a command that is cut",
        {
            "names": b"1 c\n2 a\n3 b\n4 d\n5 e\n",
            "log.1": record("done", "-2 c", pid=3),
            "log.2": b"one\n" + record("do", "b") + b"a.c:1:2: warning: x [-Wx]\na.c:9:9: warning: x [-Wx]\nb.c:9: warning: y\n"
            + b"a.c:3: warning: x [-Wx]\n" + record("do", "c") + record("do", "b"),
            "log.3": record("do", "d") + record("done", "3 d") + record("do", "a") + record("done", "0 b"),
            "log.4": b"\xffa: warning: \xfe [\xfd]\nwarning: b\n\n",
            "log.5": b"fatal error: all is lost\n",
            "facts": b"2 log a\n2 directory x\n2 usage 1 2 3\n2 command cc\n2 more x\n2 truncated cut\n2 command \n"
            b"2 usage 999999999999998 1 7\n2 directory d e\n",
        },
        [b"--", b"d", b"a", b"b", b"e"],
        json("""
{"target":"d","parent":null,"status":3,UNKNOWN,"needs":[],"lines":["\ufffda: warning: \ufffd [\ufffd]","warning: b",""],
 "lines_base64":{"0":"/2E6IHdhcm5pbmc6IP4gW/1d"},"diagnostics":[
 {"line":0,"severity":"warning","file":null,"row":null,"column":null,"message":"\ufffd","message_base64":"/g==","flag":"\ufffd",
 "flag_base64":"/Q==","key":"\ufffda: warning: \ufffd [\ufffd]","key_base64":"/2E6IHdhcm5pbmc6IP4gW/1d","nth":0,"new":null},
 {"line":1,"severity":"warning","file":null,"row":null,"column":null,"message":"b","flag":null,"key":": warning: b","nth":0,"new":null}],
 "baseline":null}
{"target":"a","parent":null,"status":null,"start_ms":null,"end_ms":null,"cpu_ms":999999999999999,"peak_kb":7,"directory":"d e",
 "commands":["cc\\nx",""],"needs":["b","c"],"lines":["one","a.c:1:2: warning: x [-Wx]","a.c:9:9: warning: x [-Wx]","b.c:9: warning: y",
 "a.c:3: warning: x [-Wx]"],"diagnostics":[
 {"line":1,"severity":"warning","file":"a.c","row":1,"column":2,"message":"x","flag":"-Wx","key":"a.c: warning: x [-Wx]","nth":0,
 "new":null},
 {"line":2,"severity":"warning","file":"a.c","row":9,"column":9,"message":"x","flag":"-Wx","key":"a.c: warning: x [-Wx]","nth":1,
 "new":null},
 {"line":3,"severity":"warning","file":"b.c","row":9,"column":null,"message":"y","flag":null,"key":"b.c: warning: y","nth":0,"new":null},
 {"line":4,"severity":"warning","file":"a.c","row":3,"column":null,"message":"x","flag":"-Wx","key":"a.c: warning: x [-Wx]","nth":2,
 "new":null}],"baseline":null}
{"target":"b","parent":"a","status":0,UNKNOWN,"needs":["d","a"],EMPTY}
{"target":"c","parent":"a","status":-2,UNKNOWN,"needs":[],EMPTY}
{"target":"e","parent":null,"status":null,UNKNOWN,"needs":[],"lines":["fatal error: all is lost"],"diagnostics":[
 {"line":0,"severity":"fatal error","file":null,"row":null,"column":null,"message":"all is lost","flag":null,
 "key":": fatal error: all is lost","nth":0,"new":null}],"baseline":null}
"""),
    ),
    (
        "a carriage return and a tab in a target that needed no rebuild",
        {"names": b"1 a\n2 b\n", "log.1": record("unchanged", "b"), "log.2": b"x\r\n\ty\n"},
        [b"--", b"a"],
        json('{"target":"a","parent":null,"status":null,UNKNOWN,"needs":["b"],EMPTY}'),
    ),
    (
        "the same with -u",
        {"names": b"1 a\n2 b\n", "log.1": record("unchanged", "b"), "log.2": b"x\r\n\ty\n"},
        [b"-u", b"--", b"a"],
        json("""
{"target":"a","parent":null,"status":null,UNKNOWN,"needs":["b"],EMPTY}
{"target":"b","parent":"a","status":null,UNKNOWN,"needs":[],"lines":["x\\r","\\ty"],"diagnostics":[],"baseline":null}
"""),
    ),
    (
        "a baseline: a warning that moved below a new one with its key, a failing, a fixed and a new target",
        {
            **REBUILT,
            "before": None,
            "before/names": b"1 gone\n2 b\n3 a\n4 all\n",
            "before/log.1": b"error: nobody builds this\n" + record("done", "1 gone", pid=2),
            "before/log.2": b"b.c:1: error: z\n" + record("done", "2 b", pid=3),
            "before/log.3": b"a.c:1:5: warning: x\n    1 | int i;\na.c:2:5: warning: y\n" + record("done", "0 a", pid=4),
            "before/log.4": record("do", "a", pid=5) + record("do", "b", pid=5) + record("done", "2 all", pid=5),
        },
        [b"--baseline=before", b"--", b"all"],
        json("""
{"target":"all","parent":null,"status":2,UNKNOWN,"needs":["a","b","c"],"lines":[],"diagnostics":[],"baseline":{"built":true,"gone":0,
 "newly_fails":false,"fixed":false}}
{"target":"a","parent":"all","status":1,UNKNOWN,"needs":[],"lines":["a.c:1:5: warning: x","    1 | int h;","a.c:7:5: warning: x",
 "    7 | int i;"],"diagnostics":[
 {"line":0,"severity":"warning","file":"a.c","row":1,"column":5,"message":"x","flag":null,"key":"a.c: warning: x","nth":0,"new":true},
 {"line":2,"severity":"warning","file":"a.c","row":7,"column":5,"message":"x","flag":null,"key":"a.c: warning: x","nth":1,"new":false}],
 "baseline":{"built":true,"gone":1,"newly_fails":true,"fixed":false}}
{"target":"b","parent":"all","status":0,UNKNOWN,"needs":[],"lines":[],"diagnostics":[],"baseline":{"built":true,"gone":1,
 "newly_fails":false,"fixed":true}}
{"target":"c","parent":"all","status":null,UNKNOWN,"needs":[],"lines":["error: \ufffd"],"lines_base64":{"0":"ZXJyb3I6IP8="},
 "diagnostics":[
 {"line":0,"severity":"error","file":null,"row":null,"column":null,"message":"\ufffd","message_base64":"/w==","flag":null,
 "key":": error: \ufffd","key_base64":"OiBlcnJvcjog/w==","nth":0,"new":true}],"baseline":{"built":false,"gone":0,"newly_fails":false,
 "fixed":false}}
"""),
    ),
    (
        "a baseline with the same logs",
        REBUILT,
        [b"-u", b"--baseline=.", b"--", b"a"],
        json("""
{"target":"a","parent":null,"status":1,UNKNOWN,"needs":[],"lines":["a.c:1:5: warning: x","    1 | int h;","a.c:7:5: warning: x",
 "    7 | int i;"],"diagnostics":[
 {"line":0,"severity":"warning","file":"a.c","row":1,"column":5,"message":"x","flag":null,"key":"a.c: warning: x","nth":0,"new":false},
 {"line":2,"severity":"warning","file":"a.c","row":7,"column":5,"message":"x","flag":null,"key":"a.c: warning: x","nth":1,"new":false}],
 "baseline":{"built":true,"gone":0,"newly_fails":false,"fixed":false}}
"""),
    ),
]

# A line, and its diagnostic: severity, file, row, column, message, flag and key. None instead of these: the line is none.
DIAGNOSTICS = [
    (b"a.c:1:2: warning: unused variable 'x' [-Wunused-variable]",
     ("warning", b"a.c", 1, 2, b"unused variable 'x'", b"-Wunused-variable", b"a.c: warning: unused variable 'x' [-Wunused-variable]")),
    (b"a.c:7: error: x", ("error", b"a.c", 7, None, b"x", None, b"a.c: error: x")),
    (b"lib/a b.c:1:2: fatal error: y.h: No such file",
     ("fatal error", b"lib/a b.c", 1, 2, b"y.h: No such file", None, b"lib/a b.c: fatal error: y.h: No such file")),
    # The word.
    (b"warning: w", ("warning", None, None, None, b"w", None, b": warning: w")),
    (b"error:", ("error", None, None, None, b"", None, b": error:")),
    (b"error: ", ("error", None, None, None, b"", None, b": error: ")),
    (b"error:  x", ("error", None, None, None, b" x", None, b": error:  x")),
    (b"x error: y warning: z", ("error", None, None, None, b"y warning: z", None, b": error: y warning: z")),
    (b"warnings: 3 error: y", ("error", None, None, None, b"y", None, b"warnings: error: y")),
    (b"a.c:1:2: xfatal error: y", ("error", None, None, None, b"y", None, b"a.c: error: y")),
    (b"a.c:1:2: fatal  error: y", ("error", None, None, None, b"y", None, b"a.c: error: y")),
    (b"fatal warning: y", ("warning", None, None, None, b"y", None, b": warning: y")),
    (b"", None), (b"warning", None), (b"warning :", None), (b"a.c:1:2:error: x", None), (b"error:x", None), (b"\terror: x", None),
    (b"error:\tx", None), (b"Error: x", None), (b"note: x", None), (b"errors: x", None), (b"'error:'", None),
    (b"a.c:1:2: Warning: x", None),
    # The place.
    (b"a.c:007:08: error: x", ("error", b"a.c", 7, 8, b"x", None, b"a.c: error: x")),
    (b"a.c:0: error: x", ("error", b"a.c", 0, None, b"x", None, b"a.c: error: x")),
    (b"a.c:999999999:999999999: error: x", ("error", b"a.c", 999999999, 999999999, b"x", None, b"a.c: error: x")),
    (b"a.c:1234567890:1: error: x", ("error", None, None, None, b"x", None, b"a.c: error: x")),
    (b"a.c:1:1234567890: error: x", ("error", None, None, None, b"x", None, b"a.c: error: x")),
    (b":1:2: error: x", ("error", None, None, None, b"x", None, b": error: x")),
    (b" :1:2: error: x", ("error", b" ", 1, 2, b"x", None, b" : error: x")),
    (b"a.c:1:2:3: error: x", ("error", None, None, None, b"x", None, b"a.c: error: x")),
    (b"a.c:1:2:  error: x", ("error", None, None, None, b"x", None, b"a.c: error: x")),
    (b"a.c:1:: error: x", ("error", None, None, None, b"x", None, b"a.c: error: x")),
    (b"a.c:: error: x", ("error", None, None, None, b"x", None, b"a.c: error: x")),
    (b"a.c:-1: error: x", ("error", None, None, None, b"x", None, b"a.c: error: x")),
    (b"a.c:1:2 error: x", ("error", None, None, None, b"x", None, b"a.c: error: x")),
    (b"a.c:1,2: error: x", ("error", None, None, None, b"x", None, b"a.c: error: x")),
    (b"C:\\a.c:1:2: error: x", ("error", None, None, None, b"x", None, b"C: error: x")),
    (b"cc1: error: x", ("error", None, None, None, b"x", None, b"cc1: error: x")),
    (b"[ 50%] error: x", ("error", None, None, None, b"x", None, b": error: x")),
    (b"make[1]: *** error: x", ("error", None, None, None, b"x", None, b"make[1]: error: x")),
    # The flag.
    (b"warning: x [a] [b]", ("warning", None, None, None, b"x [a]", b"b", b": warning: x [a] [b]")),
    (b"warning: x [-Wa,-Wb=2]", ("warning", None, None, None, b"x", b"-Wa,-Wb=2", b": warning: x [-Wa,-Wb=2]")),
    (b"warning:  [x]", ("warning", None, None, None, b"", b"x", b": warning:  [x]")),
    (b"warning: [x]", ("warning", None, None, None, b"[x]", None, b": warning: [x]")),
    (b"warning: x []", ("warning", None, None, None, b"x []", None, b": warning: x []")),
    (b"warning: x [ ]", ("warning", None, None, None, b"x", b" ", b": warning: x [ ]")),
    (b"warning: x[y]", ("warning", None, None, None, b"x[y]", None, b": warning: x[y]")),
    (b"warning: x [y] ", ("warning", None, None, None, b"x [y] ", None, b": warning: x [y] ")),
    (b"warning: x [y[z]]", ("warning", None, None, None, b"x [y[z]]", None, b": warning: x [y[z]]")),
    (b"warning: x [y]]", ("warning", None, None, None, b"x [y]]", None, b": warning: x [y]]")),
    (b"warning: x [[y]", ("warning", None, None, None, b"x [[y]", None, b": warning: x [[y]")),
    (b"warning: x  [y]", ("warning", None, None, None, b"x ", b"y", b": warning: x  [y]")),
    # The key.
    (b"/usr/bin/ld: /tmp/ccVGBeAi.o: warning: x", ("warning", None, None, None, b"x", None, b"/usr/bin/ld: warning: x")),
    (b"/tmp/ccVGBeAi.o: warning: /tmp/cc0aZ9bQ.s, /tmp/cc0aZ9bQ.s",
     ("warning", None, None, None, b"/tmp/cc0aZ9bQ.s, /tmp/cc0aZ9bQ.s", None, b"/tmp/cc*.o: warning: /tmp/cc*.s, /tmp/cc*.s")),
    (b"/tmp/ccVGBeAi.c:3:4: error: x", ("error", b"/tmp/ccVGBeAi.c", 3, 4, b"x", None, b"/tmp/cc*.c: error: x")),
    (b"error: /ccabcdef/ccabcdef. /cc123456.",
     ("error", None, None, None, b"/ccabcdef/ccabcdef. /cc123456.", None, b": error: /ccabcdef/cc*. /cc*.")),
    (b"error: /ccabcde. /ccabcdefg. /ccabcdef /ccabcd-f. ccabcdef. /CCabcdef. /cc\xc3\xa4cdef.",
     ("error", None, None, None, b"/ccabcde. /ccabcdefg. /ccabcdef /ccabcd-f. ccabcdef. /CCabcdef. /cc\xc3\xa4cdef.", None,
      b": error: /ccabcde. /ccabcdefg. /ccabcdef /ccabcd-f. ccabcdef. /CCabcdef. /cc\xc3\xa4cdef.")),
    # Colours and links.
    (b"\x1b[01m\x1b[Ka.c:3:4:\x1b[m\x1b[K \x1b[01;35m\x1b[Kwarning: \x1b[m\x1b[Kx "
     b"[\x1b]8;;https://gcc.gnu.org/x#-Wx\x07\x1b[01;35m-Wx\x1b[m\x1b[K\x1b]8;;\x07]",
     ("warning", b"a.c", 3, 4, b"x", b"-Wx", b"a.c: warning: x [-Wx]")),
    (b"a.c\x1b]8;;file:///a\x1b\\:3: er\x1b[;;mror: x", ("error", b"a.c", 3, None, b"x", None, b"a.c: error: x")),
    (b"a.c:3:\x1b[1A error: x", ("error", None, None, None, b"x", None, b"a.c: error: x")),
    (b"\x1b[1error: x", None),
    (b"\x1b]8;error: x\x07", None),
    (b"\x1b]8;; error: x\x07", ("error", None, None, None, b"x\x07", None, b": error: x\x07")),
    # Bytes that are no UTF-8.
    (b"\xff.c:1: error: \xfe [\xfd]", ("error", b"\xff.c", 1, None, b"\xfe", b"\xfd", b"\xff.c: error: \xfe [\xfd]")),
    (b"error: a\x00b\r", ("error", None, None, None, b"a\x00b\r", None, b": error: a\x00b\r")),
]  # fmt: skip
