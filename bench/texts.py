"""Writes the texts of the measure into a folder: `rays` in a world of each kind, `comments`, `numbers` of four lengths, and
`fill-TAG` up to a limit of lines or of bytes for each tag; scenes that are checked, and scenes that are traced."""
import random
import sys

folder = sys.argv[1]
worlds = {
    "box": "BOX 1000 2000 3000",
    "trd": "TRD 500 1500 1000 3000 3000",
    "tet": "TET -3000 -3000 -3000 6000 0 0 0 6000 0 0 0 6000",
}
for kind, solid in worlds.items():
    random.seed(1)
    with open(f"{folder}/rays-{kind}", "w") as text:
        text.write(f":VOLU world {solid} Air\n")
        for ray in range(65536):
            reach = 999 if ray % 2 == 0 else 99999
            numbers = [random.randint(-reach, reach) for _ in range(6)]
            if not any(numbers[3:]):
                numbers[3] = 1
            text.write(":RAY " + " ".join(map(str, numbers)) + "\n")

size = 1 << 26
head = ":VOLU world BOX 10 10 10 Air\n:RAY -20 0 0 1 0 0\n"
line = "// " + "x" * 76 + "\n"
with open(f"{folder}/comments", "w") as text:
    lines, rest = divmod(size - len(head), len(line))
    text.write(head + line * lines + " " * rest)

# half parameters, half rays; each line has expressions
for lines in (12500, 25000, 50000, 100000):
    with open(f"{folder}/numbers-{lines}", "w") as text:
        text.write(":P p0 1.5*cm\n:VOLU world BOX 1.*m (2.+$p0/15/mm*0)*m 3e3*mm Air\n")
        for line in range(1, lines // 2):
            text.write(f":P p{line} $p{line - 1}+({line % 7}-3)*2.5e-1*cm\n")
        for line in range(lines // 2 - 1):
            at = random.randint(0, lines // 2 - 1)
            text.write(f":RAY -{line % 1000}.*mm $p{at}-$p{at} .5*cm 1 -({line % 5}+1)*5/5*mm {line % 3}*cm\n")


def fill(name, *parts):
    """A text of these parts, each lines that are made from their numbers up to a limit, as far as 64 MiB reach."""
    text, room = [], size - len(head)
    for limit, line in parts:
        for number in range(limit):
            made = line(number) + "\n"
            if len(made) > room:
                break
            text.append(made)
            room -= len(made)
    with open(f"{folder}/fill-{name}", "w") as file:
        file.write("".join(text) + head)


# a double pyramid on 30 corners of a parabola, with 60 triangles, as a line of nearly 65536 bytes: numbers have leading zeros
corners = [(x, 10 * x * x, 0) for x in range(-15, 15)]
ring = list(zip(corners, corners[1:] + corners[:1]))
facets = [(a, b, (0, 1000, 500)) for a, b in ring] + [(b, a, (0, 1000, -500)) for a, b in ring]
pyramids = "TESSELLATED 60 " + " ".join("3 " + " ".join(f"{x:0118}" for corner in facet for x in corner) for facet in facets)
short = "TESSELLATED 60 " + " ".join("3 " + " ".join(str(x) for corner in facet for x in corner) for facet in facets)
terms = "+".join(["1.5*cm-(2+3)*3.*mm"] * 3300)
polygon = " ".join(f"{x} {x * x}" for x in range(-8, 8))
none = (1, lambda i: ":ROTM none 0 0 0")

fill("blanks", (65536, lambda i: f":P p{i} {' ' * 65000} 1"))
fill("expressions", (65536, lambda i: f":P p{i} {terms}"))
fill("tessellated", (65536, lambda i: f":SOLID s{i} {pyramids}"))
# the same in as few bytes, so that hulls take most of the time
fill("short-tessellated", (65536, lambda i: f":SOLID s{i} {short}"))
fill("params", (65536, lambda i: f":P p{i} {i}*mm"))
fill("solids", (65536, lambda i: f":SOLID s{i} TRD {i + 1} 20 30 40 50"))
fill("extruded", (65536, lambda i: f":SOLID s{i} EXTRUDED 16 {polygon} 2 0 {i} 0 1 9 0 0 2"))
fill("long-names", (65536, lambda i: f":SOLID {'n' * 245}{i:05} BOX 1 2 3"))
fill("rotations", (65536, lambda i: f":ROTM r{i} 90*deg {90 * (i % 4)} 180"))
fill("rays", (65535, lambda i: f":RAY {i - 30000} {i % 999} -5 {i % 7 + 1} -3 2"))
fill("volumes", none,
     (4095, lambda i: f":VOLU v{i} EXTRUDED 4 0 0 {i + 1} 0 50 50 0 50 2 -10 0 0 1 10 0 0 2 Air"),
     (4095, lambda i: f":PLACE v{i} 1 world none 0 0 0"))
# 65536 placements: 16 mothers of 4095 daughters
fill("placements", none,
     (16, lambda i: f":VOLU mother{i} BOX 9 9 9 Air"),
     (1, lambda i: ":VOLU part BOX 1 1 1 Lead"),
     (16, lambda i: f":PLACE mother{i} 1 world none 0 0 {i}"),
     (65520, lambda i: f":PLACE part {i} mother{i % 16} none {i % 999} {-i % 999} 2*{i % 99}"))


def scene(name, *lines):
    """A geometry to be checked."""
    with open(f"{folder}/check-{name}", "w") as text:
        text.write(":ROTM none 0 0 0\n:VOLU world BOX 100000 100000 100000 Air\n" + "".join(line + "\n" for line in lines))


# 4000 boxes that touch; 300 prisms on an octagon that touch each other or are apart; 200 slanting rods of which all boxes meet
# and none touch; 4032 copies in each of 16 mothers
scene("boxes", ":VOLU box BOX 5 5 5 Lead",
      *(f":PLACE box {i} world none {10 * (i % 20)} {10 * (i // 20 % 20)} {10 * (i // 400)}" for i in range(4000)))
scene("prisms", ":VOLU prism EXTRUDED 8 10 5 5 10 -5 10 -10 5 -10 -5 -5 -10 5 -10 10 -5 2 -20 0 0 1 20 0 0 1 Lead",
      *(f":PLACE prism {i} world none {20 * (i % 20)} {20 * (i // 20)} 0" for i in range(300)))
scene("rods", ":VOLU rod EXTRUDED 8 10 5 5 10 -5 10 -10 5 -10 -5 -5 -10 5 -10 10 -5 2 -1000 -1000 -1000 1 1000 1000 1000 1 Lead",
      *(f":PLACE rod {i} world none {21 * (i % 20)} {21 * (i // 20)} 0" for i in range(200)))
scene("copies", ":VOLU box BOX 5 5 5 Lead", *(f":VOLU mother{i} BOX 1000 1000 50 Air" for i in range(16)),
      *(f":PLACE mother{i} 1 world none 0 0 {100 * i}" for i in range(16)),
      *(f":PLACE_PARAM box 1 mother{i} SQUARE_XY none 63 64 10 10 -320 -320" for i in range(16)))


def traced(kind, across, up, shapes):
    """Daughters on a lattice, shaken and turned so that none meet, and 20,000 rays through it from outside."""
    random.seed(2)
    turns = [" ".join(str(90 * random.randint(0, 3)) for _ in range(3)) for _ in range(12)]
    low, high = -200, 400 * max(across, up) + 200
    lines = [f":ROTM turn{i} {turn}" for i, turn in enumerate(turns)]
    lines += [f":VOLU world EXTRUDED 4 {low} {low} {high} {low} {high} {high} {low} {high} 2 {low} 0 0 1 {high} 0 0 1 Air"]
    lines += [f":VOLU {kind}{i} {shape} Lead" for i, shape in enumerate(shapes)]
    for i in range(across * across * up):
        at = [400 * (i % across), 400 * (i // across % across), 400 * (i // across // across)]
        x, y, z = (c + random.randint(-40, 40) for c in at)
        lines.append(f":PLACE {kind}{i % len(shapes)} {i} world turn{random.randrange(12)} {x} {y} {z}")
    for _ in range(20000):
        o, to = ([random.randint(low, high) for _ in range(3)] for _ in range(2))
        side = random.randrange(3)
        o[side], to[side] = low - 100, high + 100
        lines.append(":RAY " + " ".join(map(str, o)) + " " + " ".join(str(b - a) for a, b in zip(o, to)))
    with open(f"{folder}/trace-{kind}-{across * across * up}", "w") as text:
        text.write("".join(line + "\n" for line in lines))


def sized(least, most):
    return random.randint(least, most)


random.seed(3)
boxes = [f"BOX {sized(40, 150)} {sized(40, 150)} {sized(40, 150)}" for _ in range(20)]
tetrahedra = ["TET " + " ".join(str(s * sized(80, 150)) for s in (1, 1, 1, 1, -1, -1, -1, 1, -1, -1, -1, 1)) for _ in range(20)]
hulls = [f"EXTRUDED 8 100 40 40 100 -40 100 -100 40 -100 -40 -40 -100 40 -100 100 -40 2 "
         f"-{sized(60, 150)} 0 0 {sized(2, 5)}/4 {sized(60, 150)} 0 0 {sized(2, 5)}/4" for _ in range(20)]
for across, up in ((10, 10), (20, 10)):
    traced("box", across, up, boxes)
    traced("tet", across, up, tetrahedra)
    traced("hull", across, up, hulls)
