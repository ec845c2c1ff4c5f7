"""What Python's `json` reads in the lines that `redo-log-json` writes, and what is wrong with them."""
import base64
import json

# The members that an object always has, in order. The first ones of a diagnostic are numbers and texts.
OF_LOG = ["target", "parent", "status", "start_ms", "end_ms", "cpu_ms", "peak_kb", "directory", "commands", "needs", "lines", "diagnostics",
          "baseline"]
OF_DIAGNOSTIC = ["line", "severity", "file", "row", "column", "message", "flag", "key", "nth", "new"]
OF_BASELINE = ["built", "gone", "newly_fails", "fixed"]
LISTS = ["commands", "needs", "lines"]
NUMBERS = ["status", "start_ms", "end_ms", "cpu_ms", "peak_kb", "line", "row", "column", "nth", "gone"]
FLAGS = ["new", "built", "newly_fails", "fixed"]
ALWAYS_KNOWN = ["target", "severity", "message", "key", "line", "nth", *OF_BASELINE]
EXACT = "_base64"


class Faulty(Exception):
    pass


def require(holds, what):
    if not holds:
        raise Faulty(what)


def members(pairs):
    names = [name for name, _ in pairs]
    require(len(set(names)) == len(names), f"a member twice in {names}")
    return dict(pairs)


def refused(text):
    raise Faulty(f"the number {text}")


def bytes_from(text, exact):
    """The bytes that a text and exact bytes, or None, give together."""
    if exact is None:
        return text.encode("utf-8", "strict")
    raw = base64.b64decode(exact, validate=True)
    require(base64.b64encode(raw).decode() == exact, f"Base64 in another form: {exact}")
    require(raw.decode("utf-8", "replace") == text and "\ufffd" in text, f"the text {text!r} of {raw}")
    try:
        raw.decode("utf-8", "strict")
    except UnicodeDecodeError:
        return raw
    raise Faulty(f"exact bytes of the text {text!r}")


def values_of(one, names):
    """The values of an object's members, with bytes in place of texts. Its members must be these, in this order."""
    wanted = [with_exact for name in names for with_exact in (name, name + EXACT) if with_exact == name or with_exact in one]
    require(list(one) == wanted, f"the members {list(one)}")
    found = {}
    for name in names:
        value, exact = one[name], one.get(name + EXACT)
        if name == "diagnostics":
            found[name] = [values_of(other, OF_DIAGNOSTIC) for other in value]
        elif name in LISTS:
            exact = exact or {}
            positions = [str(position) for position in range(len(value)) if str(position) in exact]
            require(list(exact) == positions and (exact or name + EXACT not in one), f"the positions {list(exact)} of {len(value)}")
            found[name] = [bytes_from(text, exact.get(str(position))) for position, text in enumerate(value)]
        elif name == "baseline" and value is not None:
            found[name] = values_of(value, OF_BASELINE)
        elif value is None:
            require(name not in ALWAYS_KNOWN and exact is None, f"{name} is null")
            found[name] = None
        elif name in FLAGS:
            require(type(value) is bool, f"{name} is {value}")
            found[name] = value
        elif name in NUMBERS:
            require(type(value) is int and abs(value) < 2**53 and (value >= 0 or name == "status"), f"{name} is {value}")
            found[name] = value
        else:
            found[name] = bytes_from(value, exact)
    return found


def read(out):
    """The values of each line's object."""
    require(out == b"" or out.endswith(b"\n"), "an unended line")
    lines = out.decode("utf-8", "strict").split("\n")[:-1]
    read = [json.loads(line, object_pairs_hook=members, parse_float=refused, parse_constant=refused) for line in lines]
    require(all(type(one) is dict for one in read), "a line that is no object")
    return [values_of(one, OF_LOG) for one in read]


def faults_of(out, logs, every):
    """What is wrong with the objects of these logs. `logs` has the text lines of each listed target."""
    try:
        objects = read(out)
        targets = [one["target"] for one in objects]
        require(len(set(targets)) == len(targets), "a target twice")
        require(not every or sorted(targets) == sorted(logs), f"the targets {targets}")
        for place, one in enumerate(objects):
            require(one["target"] in logs, f"the target {one['target']}")
            require(one["lines"] == logs[one["target"]], f"the lines of {one['target']}")
            require(one["parent"] is None or one["parent"] in targets[:place], f"the parent of {one['target']}")
            require(len(set(one["needs"])) == len(one["needs"]), f"what {one['target']} needs")
            require(all(found["line"] < len(one["lines"]) for found in one["diagnostics"]), f"a line of {one['target']}")
            ids = [(found["key"], found["nth"]) for found in one["diagnostics"]]
            require(len(set(ids)) == len(ids), f"the keys of {one['target']}")
            flags = {found["new"] for found in one["diagnostics"]}
            wanted = {None} if one["baseline"] is None else {True, False} if one["baseline"]["built"] else {True}
            require(flags <= wanted, f"what is new in {one['target']}")
            require((one["baseline"] is None) == (objects[0]["baseline"] is None), f"the baseline of {one['target']}")
        return []
    except (Faulty, ValueError) as fault:
        return [repr(fault)]
