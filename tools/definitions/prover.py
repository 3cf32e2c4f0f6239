"""Proves cases by `rt check` in a scratch repository."""

import os
import re
import shutil
import subprocess
import sys
import time

from rows import Case, packet
from running import write

PACKET = 12_000  # bytes of text in a file of rows
BATCH = 20  # files of rows in one `rt check`
FAULT = re.compile(r"^\./proofs/Packet(\d+)\.antt:\d+:\d+: error: `row(\d+)`(.*)", re.MULTILINE)
LIMIT = "step limit"


class Scratch:
    """A scratch repository with a copy of the definitions and a crate of rows."""

    def __init__(self, root, folder):
        self.folder, self.crate, self.log = folder, os.path.join(folder, "crates", "rows"), os.path.join(folder, "check.log")
        shutil.rmtree(self.crate, ignore_errors=True)
        shutil.rmtree(os.path.join(folder, "crates", "wasmprinter_spec"), ignore_errors=True)
        shutil.copytree(os.path.join(root, "crates", "wasmprinter_spec"), os.path.join(folder, "crates", "wasmprinter_spec"))
        shutil.copy(os.path.join(root, "HANDLES"), folder)
        write(os.path.join(folder, "crates.txt"), b"wasmprinter_spec:\nrows: wasmprinter_spec\n")
        write(os.path.join(self.crate, "src", "lib.rt"), b"//! Rows over texts and modules of others.\n#![tactic(auto)]\n")

    def check(self, packets):
        """Checks packets of cases. Returns whether all were proved, and the rows that were not: the packet, the position and the message."""
        proofs = os.path.join(self.crate, "proofs")
        shutil.rmtree(proofs, ignore_errors=True)
        for number, cases in packets.items():
            write(os.path.join(proofs, f"Packet{number}.antt"), packet(cases).encode())
        write(os.path.join(proofs, "Lib.antt"), "".join(f"pub mod Packet{number}\n" for number in packets).encode())
        with open(self.log, "wb") as log:
            status = subprocess.run(["rt", "check"], cwd=self.crate, stdin=subprocess.DEVNULL, stdout=log, stderr=log, check=False).returncode
        with open(self.log, encoding="utf-8", errors="replace") as log:
            output = log.read()
        faults = [(int(number), int(row), message) for number, row, message in FAULT.findall(output)]
        if status == 0 and faults:
            raise RuntimeError(f"`rt check` succeeds, but names {len(faults)} rows: see {self.log}")
        return status == 0, faults

    def forget(self):
        """Removes what the checks of the rows kept."""
        shutil.rmtree(os.path.join(self.crate, "out"), ignore_errors=True)


def packed(cases, limit, size):
    """Returns lists of cases, each of at most `limit` by the measure `size`, or of a single case."""
    lists, room = [], 0
    for case in cases:
        if not lists or size(case) > room:
            lists.append([])
            room = limit
        lists[-1].append(case)
        room -= size(case)
    return lists


def without_faults(packets, faults):
    """Marks the cases whose rows were not proved, and returns the packets without them."""
    for number, row, message in faults:
        case = packets[number][row]
        case.tried, case.limit = case.tried + 1, case.limit or LIMIT in message
    failed = {(number, row) for number, row, _ in faults}
    left = {number: [case for row, case in enumerate(cases) if (number, row) not in failed] for number, cases in packets.items()}
    return {number: cases for number, cases in left.items() if cases}


def prove_halves(scratch, cases):
    """Proves cases of which `rt check` proves not all and names none, in two halves. A case alone counts as over the limit."""
    if len(cases) == 1:
        cases[0].limit = True
        return
    middle = len(cases) // 2
    prove_batch(scratch, [cases[:middle]])
    prove_batch(scratch, [cases[middle:]])


def prove_batch(scratch, packets):
    """Proves the rows of a batch. Rows that are not proved are taken out, until `rt check` accepts all others."""
    left = dict(enumerate(packets))
    while left:
        is_proved, faults = scratch.check(left)
        cases = [it for packet in left.values() for it in packet]
        if is_proved:
            for case in cases:
                case.held = case.statements[case.tried]
            return
        if not faults:
            prove_halves(scratch, cases)
            return
        left = without_faults(left, faults)


def control(scratch, true_case, other):
    """Checks that a text beside another module is not proved, so that an accepted row says something."""
    case = Case(None, ("same",), true_case.text, other.data)
    is_proved, faults = scratch.check({0: [case]})
    if is_proved or len(faults) != 1:
        raise RuntimeError("the prover does not refuse a text beside another module")


def prove(scratch, cases):
    """Proves a statement of each case, if one of its statements holds. Sets `held`, or leaves `None`."""
    open_cases, started = list(cases), time.time()
    while open_cases:
        packets = packed(open_cases, PACKET, Case.size)
        for at in range(0, len(packets), BATCH):
            prove_batch(scratch, packets[at:at + BATCH])
            scratch.forget()
            done = min(at + BATCH, len(packets))
            print(f"definitions: {done} of {len(packets)} packets, {time.time() - started:.0f} s", file=sys.stderr, flush=True)
        open_cases = [it for it in open_cases if it.held is None and not it.limit and it.tried < len(it.statements)]
