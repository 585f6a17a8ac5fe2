"""Scenarios of the largest size, and the times of calls that read them."""

import itertools
import os
import tempfile

from program import PROGRAM, run, sized

LARGEST = sized(8_388_608, 40_000)
EVENTS = sized(100_000, 100)
CIRCUITS = sized(512, 8)
EDGES = sized(64, 6)
WIRES = sized(1_024, 8)
GROUPS = 2 * WIRES
TRIES = 9
# An event that is no command.
NONE = "jump c1"

# What both ends of a wire say, by the wire's own keys in version 1 and in tables of their own in version 2.
OFFER = {"mode": '"tagged"', "control_word": "false", "mtu": "9000", "vlan": "7", "vccv": "7", "status": "false", "description": '"d"'}


def ends(version, number):
    """What a wire of this number says of its ends."""
    groups = [2 * number - 1, 2 * number]
    if version == 1:
        offers = [dict(OFFER, group=groups[0]), dict(OFFER, group=groups[1])]
        return "".join(f"{prefix}{key} = {value}\n" for prefix, offer in zip(("", "far_"), offers) for key, value in offer.items())
    offers = [dict(OFFER, group=f'"g{group}"') for group in groups]
    said = [", ".join(f"{key} = {value}" for key, value in offer.items()) for offer in offers]
    return f"near = {{ {said[0]} }}\nfar = {{ {said[1]} }}\n"


def rows(version):
    """The text of all tables: a service of 64 edges, its circuits, and wires between pairs of the edges."""
    text = "".join(f'[[edge]]\nname = "e{number}"\naddress = "10.0.0.{number}"\n\n' for number in range(1, EDGES + 1))
    text += '[[service]]\nname = "s"\n'
    if version == 2:
        text += "".join(f'\n[[group]]\nname = "g{number}"\nnumber = {number}\n' for number in range(1, GROUPS + 1))
    for number in range(1, CIRCUITS + 1):
        text += f'\n[[circuit]]\nname = "c{number}"\nedge = "e{(number - 1) % EDGES + 1}"\nservice = "s"\n'
    pairs = itertools.islice(itertools.combinations(range(1, EDGES + 1), 2), WIRES)
    for number, (near, far) in enumerate(pairs, 1):
        text += f'\n[[wire]]\nname = "w{number}"\nservice = "s"\nclass = "mesh"\npath = ["e{near}", "e{far}"]\npw_id = {number}\n'
        text += ends(version, number)
    return text


def text_of(version, pairs, last, said):
    """The text of a scenario, in whose frames there are so many octets."""
    frames = EVENTS - 1
    events = []
    for event in range(frames):
        octets = pairs // frames + (event < pairs % frames)
        events.append(f'"frame c{event % CIRCUITS + 1} {"5a" * octets}",\n')
    return f'version = {said or version}\nevents = [\n{"".join(events)}"{last}",\n]\n\n{rows(version)}'.encode("ascii")


def scenario(version, last=NONE, said=None):
    """The octets of a scenario of a version in just under the limit, with this last event; it may say another version."""
    return text_of(version, (LARGEST - 1 - len(text_of(version, 0, last, said))) // 2, last, said)


def best(command, cases):
    """The best time of each case, and the most memory of a further call. The cases are tried in turn: each is the octets of a scenario,
    and the status and the line that the call has to end with."""
    with tempfile.TemporaryDirectory() as folder:
        calls = []
        for number, (octets, status, line) in enumerate(cases):
            path = os.path.join(folder, f"{number}.toml")
            with open(path, "wb") as out:
                out.write(octets)
            calls.append(([PROGRAM, command, path], os.devnull, status, line))
        rounds = [[run(*call).used() for call in calls] for _ in range(TRIES)]
        return [(min(times), run(*call, watched=True).held) for times, call in zip(zip(*rounds), calls)]
