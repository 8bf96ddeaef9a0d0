"""Inputs with one fault each, and what the program says of them, for tools/test_outside.py."""

FIRST = '{"name":"first","dst":"10.0.0.0/24","nodes":[],"edges":[],"starts":[]}'
WEB = ('{"name":"web","dst":"10.1.0.0/24","nodes":["leaf1:up","leaf2:host"],"edges":[[0,1]],"starts":[0],"delivered":[1]}')
# The same in version 2.
IDS = ('{"name":"web","dst":"10.1.0.0/24","nodes":[{"id":"a","at":"leaf1:up"},{"id":"b","at":"leaf2:host"}],'
       '"edges":[["a","b"]],"starts":["a"],"delivered":["b"]}')
MANY_INTERFACES = ",".join(f'"i{it}"' for it in range(100_001))
MANY_NODES = ",".join(['"leaf1:up"'] * 10_000)
TABLES = ('{"version":1,"starts":["leaf1:up"],"tables":[{"device":"leaf1","routes":[{"prefix":"10.1.0.0/16"}]},'
          '{"device":"leaf2","routes":[{"prefix":"10.2.0.0/16","hops":["leaf2:host"]}]}]}')
MANY_ROUTES = "".join(f'{{"prefix":"10.{it // 256}.{it % 256}.0/24"}},' for it in range(10_000))
# A set of 32,767 parts.
MANY_PARTS = "pre"
for _ in range(14):
    MANY_PARTS = f"union({MANY_PARTS}, {MANY_PARTS})"
MANY_ASSERTIONS = "".join(f"assert a{it} = equal(pre, post);\n" for it in range(200))
MANY_CHECKS = "".join(f"check c{it} : {{ .* : preserve }};\n" for it in range(200))

# A piece of a text, what stands in its place, and what is said then. In the example's locations leaf2:up is the third interface.
OF_LOCATIONS = (
    ("}", "", "11 NotJson"),
    ('"version": 1', '"version": "1"', "12 WrongShape rule 2 row 0"),
    ('"leaf2:up"', "7", "12 WrongShape rule 12 row 2"),
    ('"version": 1', '"version": 2', "13 BadVersion"),
    ('"leaf2:up"', '"leaf2 up"', "14 BadName row 2"),
    ('"leaf2:up"', '"drop"', "15 ReservedName row 2"),
    ('"leaf2:up"', '"leaf1:up"', "16 RepeatedEntry row 2"),
    ('"leaf2:up"', MANY_INTERFACES, "20 TooMany row 100000"),
)
OF_SNAPSHOTS = (
    ("}", "", "11 NotJson"),
    ('"version":1', '"version":"1"', "12 WrongShape rule 22 row 0"),
    ('"version":1', '"version":3', "13 BadVersion"),
)
# Here in the second flow of two.
OF_FLOWS = (
    ('"10.1.0.0/24"', "7", "12 WrongShape rule 26 row 1"),
    ('"web"', '"w b"', "14 BadName row 1"),
    ('"web"', '"first"', "16 RepeatedEntry row 1"),
    ('"leaf1:up"', '"leaf9:up"', "17 UnknownLocation row 1"),
    ("[0,1]", "[0,2]", "18 BadIndex row 1"),
    ("/24", "/33", "19 BadPrefix row 1"),
    ('"leaf1:up"', MANY_NODES, "20 TooMany row 1"),
)
OF_IDS = (
    ('"a","at"', '"a","in"', "12 WrongShape rule 49 row 1"),
    ('["a","b"]', '["a","c"]', "22 UnknownNode row 1"),
)
# Here in the second table of two.
OF_TABLES = (
    ("]}]}]}", "", "11 NotJson"),
    ('"version":1', '"version":"1"', "12 WrongShape rule 62 row 0"),
    ('"version":1', '"version":2', "13 BadVersion"),
    ('"starts":["leaf1:up"]', '"starts":["leaf1:up",7]', "12 WrongShape rule 64 row 1"),
    ('"starts":["leaf1:up"]', '"starts":["leaf9:up"]', "17 UnknownLocation row 0"),
    ('"device":"leaf2"', '"device":"leaf1"', "16 RepeatedEntry row 1"),
    ('"device":"leaf2"', '"device":"leaf9"', "17 UnknownLocation row 1"),
    ('"hops":["leaf2:host"]', '"hops":[7]', "12 WrongShape rule 72 row 1"),
    ('"hops":["leaf2:host"]', '"hops":["leaf9:host"]', "17 UnknownLocation row 1"),
    ('"10.2.0.0/16"', '"10.2.0.0/33"', "19 BadPrefix row 1"),
    ('"10.2.0.0/16"', '"::/0"', "19 BadPrefix row 1"),
    ('{"prefix":"10.2.0.0/16"', MANY_ROUTES + '{"prefix":"10.2.0.0/16"', "20 TooMany row 1"),
)
# The mark ~ isn't in the text, and stands where the fault is.
OF_SPECIFICATIONS = (
    ("check c : { ~leaf9:up : preserve };", "17 UnknownLocation"),
    ("check c : { .* : preserve }; ~@", "31 BadToken"),
    ("check c : { .* : ~check };", "32 Syntax"),
    ("check c : { .* : preserve }\n~", "32 Syntax"),
    ("check c : ~$none;", "33 UnknownName"),
    ("check c : { .* : preserve }; check ~c : { .* : preserve };", "34 RepeatedName"),
    (f"check c : {{ {'(' * 99}~(.", "35 TooDeep"),
    (f"{MANY_CHECKS}check ~last : {{ .* : preserve }};", "36 TooLarge"),
    ("check c : { .{~65} : preserve };", "37 BadNumber"),
    ("level device; check c : { interface(~leaf1:up) : preserve };", "38 FinerLevel"),
)
OF_ASSERTIONS = (
    ("assert a = equal(~leaf9:up, pre);", "17 UnknownLocation"),
    ("assert a = equal(pre, post); ~@", "31 BadToken"),
    ("assert a = equal(pre~);", "32 Syntax"),
    ("assert a = equal(pre, post)\n~", "32 Syntax"),
    ("assert ~meet = equal(pre, post);", "32 Syntax"),
    ("assert a = equal(star(~identity(all)), post);", "32 Syntax"),
    ("assert a = equal(pre, post); assert ~a = equal(pre, leaf9:up);", "34 RepeatedName"),
    (f"assert a = {'not(' * 100}equal~(", "35 TooDeep"),
    (f"{MANY_ASSERTIONS}assert ~last = equal(pre, leaf9:up);", "36 TooLarge"),
    (f"assert ~a = equal({MANY_PARTS}, post);", "36 TooLarge"),
    ("level device; assert a = equal(interface(~leaf1:up), leaf9);", "38 FinerLevel"),
)


def snapshot(flow, version=1):
    return f'{{"version":{version},"flows":[{FIRST},{flow}]}}'


def refusals(locations):
    """Yields operands, each with a faulty text and what is said of it; `locations` is the text of the example's."""
    for piece, other, said in OF_LOCATIONS:
        yield "locations", locations.replace(piece, other, 1), said
    for operand in ("before", "after"):
        for piece, other, said in OF_SNAPSHOTS:
            yield operand, snapshot(WEB).replace(piece, other, 1), said
        for piece, other, said in OF_FLOWS:
            yield operand, snapshot(WEB.replace(piece, other, 1)), said
        for piece, other, said in OF_IDS:
            yield operand, snapshot(IDS.replace(piece, other, 1), 2), said
    for operand in ("tables", "other"):
        for piece, other, said in OF_TABLES:
            yield operand, TABLES.replace(piece, other, 1), said
    for text, said in OF_SPECIFICATIONS:
        yield "spec", text.replace("~", ""), f"{said} at {text.index('~')}"
    for text, said in OF_ASSERTIONS:
        yield "assertions", text.replace("~", ""), f"{said} at {text.index('~')}"
