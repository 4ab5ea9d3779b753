"""Runs the program once for each growth that it makes, with that growth refused.

Each run must either answer as with all memory, or say that memory ran out: nothing on the output (of `run` and `steps` the
first lines, of `debug` the first replies) and a fault `Memory` on the other writer, or a stop `Memory` in a report, or `no memory`
among a debugger's replies, each with status 1. There is no third thing. Prints how many growths were refused in each case, and the first answer that is none of these.
"""
import os
import re
import subprocess
import sys
import tempfile

ROOT = os.path.dirname(os.path.dirname(os.path.abspath(__file__)))
PROGRAM = f"{ROOT}/crates/otbench/out/otbench"

COMMANDS = b"%%\nwatch doc 0\nbreak 4\nrun\nrun\nback 2\nshow\nstep 100\nback 100\nwhere\n"

# One worker, so that each run makes the same growths; client 1 joins, and a session is parked.
LATE = b'{"clients":2,"workers":1,"present":1,"typing":[[{"at":0,"insert":"a"}],[{"at":0,"insert":"b"},{"at":1,"delete":1}]]}'

# Reads whose lines are more than are gathered before they are written.
READS = b"clients 1\nstart \"" + b"x" * 30000 + b"\"\n" + b"read 0\n" * 6

# An edit at twelve places of one chunk, which are edited together.
PLACES = b"clients 2\nstart \"" + b"x" * 300 + b"\"\nedit 0 [" + b"20,\"ab\",-3," * 12 + b"24]\ntake 0\nack 0\ndeliver 1\nread 1\n"

# What ot.js prints over examples/one-client.ots, and a port whose buffer a delivery does not change over examples/weak-order.ots.
ONE_CLIENT = """{"at":0,"clients":1,"present":1,"start":"𝒳y"}
{"at":1,"do":"edit","client":0,"edit":[1,"é",1],"revision":0,"state":"awaiting-confirm","outstanding":[1,"é",1],"buffer":null,"document":"𝒳éy"}
{"at":2,"do":"take","client":0,"revision":1,"appended":[1,"é",1]}
{"at":3,"do":"ack","client":0,"revision":1,"state":"synchronized"}
{"at":4,"do":"read","client":0,"document":"𝒳éy"}
{"at":4,"end":"quiet"}
""".encode()
BUFFER_KEPT = b"".join(b'{"at":%d}\n' % at for at in range(1, 7)) + b'{"at":7,"buffer":["a",-1,1]}\n'


def cases():
    def text(name):
        with open(f"{ROOT}/examples/{name}", "rb") as it:
            return it.read()

    yield ["run"], text("weak-order.ots")
    yield ["run"], text("late-join.ots")
    yield ["run"], READS
    yield ["run"], PLACES
    yield ["run", "--image"], text("late-join.img")
    yield ["asm"], text("weak-order.ots")
    yield ["dis"], text("late-join.img")
    yield ["judge"], text("reversed.json")
    yield ["check"], text("weak-order.ots")
    yield ["steps"], text("late-join.ots")
    yield ["conform"], text("one-client.ots") + b"%%\n" + ONE_CLIENT
    yield ["conform"], text("weak-order.ots") + b"%%\n" + BUFFER_KEPT
    yield ["debug"], text("two-clients.ots") + COMMANDS
    yield ["debug"], text("late-join.ots") + COMMANDS
    yield ["threads"], text("two-typists.json")
    yield ["threads"], LATE

# How a subcommand says among its lines that memory ran out.
STOP = rb"^stopped at \d+: Memory$"
SAID = {"run": STOP, "check": STOP, "conform": STOP, "debug": rb"^no memory$", "steps": rb'^\{"at":\d+,"do":.*,"stopped":"Memory"\}$'}


def answer(command, given, shim, at):
    told, tell = os.pipe()
    if tell != 9:
        os.dup2(tell, 9)
        os.close(tell)
    ran = subprocess.run(command, input=given, capture_output=True, pass_fds=(9,),
                         env={"LD_PRELOAD": shim, "FAIL_AT": str(at)})
    os.close(9)
    refused = os.read(told, 1) == b"!"
    os.close(told)
    return refused, (ran.returncode, ran.stdout, ran.stderr)


def is_first_part(out, whole):
    """Whether these are the first lines of the whole, or none."""
    return whole.startswith(out) and (not out or out.endswith(b"\n"))


def wants_memory(words, whole, got):
    """Whether the answer says that memory ran out, and is the whole answer up to where it says so. What follows a stop or a
    reply `no memory` is not compared: it depends on the place where the program then stands."""
    status, out, faults = got
    if status != 1 or not re.fullmatch(rb"(otbench: ((line|byte) \d+: )?Memory\n)?", faults):
        return False
    if faults:
        return is_first_part(out, whole[1]) if words[0] in ("run", "debug", "steps") else not out
    said = SAID.get(words[0])
    found = said and re.search(said, out, re.M)
    return bool(found) and whole[1].startswith(out[:found.start()])


def each_growth(command, given, shim):
    """What the command answers with all memory, and then with each of its growths refused in turn."""
    at, refused = 0, True
    while refused:
        refused, got = answer(command, given, shim, at)
        if refused or at == 0:
            yield got
        refused, at = refused or at == 0, at + 1


def program(shim):
    bad = 0
    for words, given in cases():
        growths = each_growth([PROGRAM, *words], given, shim)
        whole, at, same = next(growths), 0, 0
        for at, got in enumerate(growths, 1):
            same += got == whole
            if got != whole and not wants_memory(words, whole, got):
                bad += 1
                print(f"{' '.join(words)}: growth {at} refused: {got}")
                break
        print(f"{' '.join(words)}: {at} growths refused in turn: {at - same} answered Memory, {same} as with all memory")
    return bad


def main():
    if sys.argv[1:]:
        sys.exit("bench/failing_memory.py takes no words")
    with tempfile.TemporaryDirectory() as room:
        shim = f"{room}/failing_memory.so"
        subprocess.run(["gcc", "-O2", "-shared", "-fPIC", "-o", shim, f"{ROOT}/bench/failing_memory.c", "-ldl"], check=True)
        return 1 if program(shim) else 0


if __name__ == "__main__":
    sys.exit(main())
