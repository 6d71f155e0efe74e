#!/usr/bin/env python3
"""Runs the built program on stated inputs, and prints wall time and peak memory as a table.

  bench/run.py        after ./vx has built the program once
  bench/run.py front  texts of 1,048,576 bytes of each kind in bench/texts.py, accepted and refused, and a tenth of each: the least
                      processor time of three runs to their tokens or their program, and to each stage on the way; after rt ci
                      or, in crates/front_speed, rt run has built that program
  bench/run.py passes the kernels of bench/kernels.py through the passes, as large as a kernel may be: words of machine code a
                      node, registers, and the time of each pass; after rt run in crates/pass_speed
  bench/run.py ports  millions of stores a second to shared words, by one to four threads; after rt ci or, in crates/port_steps,
                      rt run has built that program
  bench/run.py lanes  millions of lane instructions a second of processor time of one warp with 1, 8 and 32 active lanes in a
                      straight arithmetic loop, to reach 100 with 32; after rt ci or, in crates/lane_steps, rt run has built
                      that program
  bench/run.py core   millions of instructions a second of processor time of one core with 1 and 16 warps, in a loop with a load
                      and a store on words of its own; after rt ci or, in crates/core_steps, rt run has built that program
  bench/run.py text   millions of bytes a second of processor time: ints from bytes into words, to reach 1,000, and ints in words to
                      lines, to reach 200; after rt ci or, in crates/text_speed, rt run has built that program

It fails where a program ends with another status than it is to. The peak is never below that of the interpreter that starts the program, about 14 MiB.
"""
import os
import struct
import subprocess
import sys
import tempfile
import time

sys.dont_write_bytecode = True

from kernels import backward, family, kernel
from texts import LIMIT, STAGES, TEXTS

TOP = os.path.dirname(os.path.dirname(os.path.abspath(__file__)))
PROGRAM = os.path.join(TOP, "crates", "vx", "out", "vx")
PORT_STEPS = os.path.join(TOP, "crates", "port_steps", "out", "port_steps")
LANE_STEPS = os.path.join(TOP, "crates", "lane_steps", "out", "lane_steps")
CORE_STEPS = os.path.join(TOP, "crates", "core_steps", "out", "core_steps")
FRONT_SPEED = os.path.join(TOP, "crates", "front_speed", "out", "front_speed")
PASS_SPEED = os.path.join(TOP, "crates", "pass_speed", "out", "pass_speed")
TEXT_SPEED = os.path.join(TOP, "crates", "text_speed", "out", "text_speed")
STEPS = 20_000_000
WARP_STEPS = 10_000_000
GROUP_STEPS = 10_000_000
TIMES = 100


def affine(folder):
    """The first example: eight work-items, one assignment."""
    example = os.path.join(TOP, "examples", "affine")
    return ["run", os.path.join(example, "affine.cl"), "buf=x:int:in:" + os.path.join(example, "x.bin"),
            "buf=y:int:zero:8", "do=affine/8/8/x,y", "show=y"]


def assignments(folder, most):
    """A launch of 32 work-items over 16 buffers, whose kernel has as many assignments as there is room for, and at most so many.
    Each has 12 nodes, of which a kernel may have 16,384."""
    names = ["p%d" % n for n in range(16)]
    head = "__kernel void k(" + ", ".join("__global int *" + n for n in names) + ") {"
    text, n = [head], 0
    size = len(head) + 1
    while n < most:
        a, b = names[n % 16], names[(n + 1) % 16]
        line = "%s[get_global_id(0)] = %s[get_global_id(0)] * 3 + get_global_id(0);" % (a, b)
        if size + len(line) > LIMIT:
            break
        text.append(line)
        size += len(line)
        n += 1
    with open(os.path.join(folder, "k.cl"), "w") as file:
        file.write("".join(text) + "}")
    with open(os.path.join(folder, "d.bin"), "wb") as file:
        file.write(b"".join(struct.pack("<i", v) for v in range(32)))
    return (["run", "k.cl"] + ["buf=%s:int:in:d.bin" % n for n in names]
            + ["do=k/32/32/" + ",".join(names)] + ["show=" + n for n in names])


def largest(folder):
    """The largest launch of today's form: as many assignments as a kernel may have."""
    return assignments(folder, 16_384 // 12)


def refused(folder):
    """A mebibyte of assignments, which are too many for a kernel."""
    return assignments(folder, LIMIT)


def kernel_of(folder, stores):
    """A kernel of so many stores, of four nodes each."""
    with open(os.path.join(folder, "k.cl"), "w") as file:
        file.write("__kernel void k(__global int *a) { %s}\n" % ("a[0] = 1; " * stores))
    return ["build", "k.cl", "k"]


def build(folder):
    """The largest kernel that has an image: 40 words for each of its nodes and 256 more are at most 65,536. It is to take less than 0.2 seconds."""
    return kernel_of(folder, 1_632 // 4 - 1)


def build_tenth(folder):
    """A tenth of it."""
    return kernel_of(folder, (1_632 // 4 - 1) // 10)


def assembly(folder):
    """As many lines as an image has words."""
    lines = ["addi x%d, x%d, %d" % (n % 32, n * 7 % 32, n % 2048) for n in range(65536)]
    with open(os.path.join(folder, "a.s"), "w") as file:
        file.write("\n".join(lines) + "\n")
    return ["asm", "a.s"]


def disassembly(folder):
    """As many words as an image has, all of them additions."""
    words = [(n % 2048) << 20 | (n * 7 % 32) << 15 | (n % 32) << 7 | 0b0010011 for n in range(65536)]
    with open(os.path.join(folder, "a.hex"), "w") as file:
        file.write("".join("%08x\n" % word for word in words))
    return ["dis", "a.hex"]


def run_once(words, folder, output=subprocess.DEVNULL):
    begun = time.monotonic()
    child = subprocess.Popen(words, cwd=folder, stdout=output)
    _, status, usage = os.wait4(child.pid, 0)
    return os.waitstatus_to_exitcode(status), time.monotonic() - begun, usage.ru_maxrss / 1024


def failed(wrong):
    """The status of the bench: 1 where some program ended otherwise than it is to."""
    if wrong:
        print("bench: %d statuses are not what they are to be" % wrong)
    return 1 if wrong else 0


def measure(make):
    with tempfile.TemporaryDirectory() as folder:
        return run_once([PROGRAM] + make(folder), folder)


def seconds_of(program, *numbers):
    begun = time.monotonic()
    subprocess.run([program] + [str(number) for number in numbers], check=True)
    return time.monotonic() - begun


def ports():
    """Each thread makes as many stores; what starting up takes is measured without stores, and taken off."""
    if not os.access(PORT_STEPS, os.X_OK):
        sys.exit("bench: port_steps is not built: run rt run -- 1 0 0 in crates/port_steps once")
    print("%-8s %20s %20s" % ("threads", "distinct, M stores/s", "equal, M stores/s"))
    for threads in range(1, 5):
        rates = []
        for apart in (16, 0):
            taken = seconds_of(PORT_STEPS, threads, STEPS, apart) - seconds_of(PORT_STEPS, threads, 0, apart)
            rates.append(threads * STEPS / taken / 1e6)
        print("%-8d %20.1f %20.1f" % (threads, rates[0], rates[1]))
    return 0


def processor_seconds_of(program, *numbers):
    child = subprocess.Popen([program] + [str(number) for number in numbers])
    _, status, usage = os.wait4(child.pid, 0)
    if os.waitstatus_to_exitcode(status) != 0:
        sys.exit("bench: %s failed" % os.path.basename(program))
    return usage.ru_utime + usage.ru_stime


def lanes():
    """A warp runs on one core, so its processor time is counted, and other programs on the machine are not. What starting up
    takes is measured without instructions, and taken off."""
    if not os.access(LANE_STEPS, os.X_OK):
        sys.exit("bench: lane_steps is not built: run rt run -- 1 0 in crates/lane_steps once")
    print("%-8s %24s %24s" % ("lanes", "warp instructions, M/s", "lane instructions, M/s"))
    for count in (1, 8, 32):
        taken = processor_seconds_of(LANE_STEPS, count, WARP_STEPS) - processor_seconds_of(LANE_STEPS, count, 0)
        rate = WARP_STEPS / taken / 1e6
        print("%-8d %24.1f %24.1f" % (count, rate, count * rate))
    return 0


def core():
    """What starting up takes is measured with one instruction, and taken off."""
    if not os.access(CORE_STEPS, os.X_OK):
        sys.exit("bench: core_steps is not built: run rt run -- 1 1 in crates/core_steps once")
    print("%-8s %20s" % ("warps", "instructions, M/s"))
    for warps in (1, 16):
        taken = processor_seconds_of(CORE_STEPS, warps, GROUP_STEPS) - processor_seconds_of(CORE_STEPS, warps, 1)
        print("%-8d %20.1f" % (warps, GROUP_STEPS / taken / 1e6))
    return 0


def text_of(way, times):
    """The least processor time of three runs, and how many bytes the program says."""
    least = None
    for _ in range(3):
        child = subprocess.Popen([TEXT_SPEED, way, str(times)], stdout=subprocess.PIPE)
        said = child.stdout.read()
        _, status, usage = os.wait4(child.pid, 0)
        if os.waitstatus_to_exitcode(status) != 0:
            sys.exit("bench: text_speed failed")
        taken = usage.ru_utime + usage.ru_stime
        least = taken if least is None else min(least, taken)
    return least, int(said)


def text():
    """What starting up takes is measured with one round, and taken off."""
    if not os.access(TEXT_SPEED, os.X_OK):
        sys.exit("bench: text_speed is not built: run rt run -- in 1 in crates/text_speed once")
    print("%-4s %14s" % ("way", "bytes, M/s"))
    for way, times in (("in", 101), ("out", 6)):
        (one, few), (all_rounds, many) = text_of(way, 1), text_of(way, times)
        print("%-4s %14.1f" % (way, (many - few) / (all_rounds - one) / 1e6))
    return 0


def least(words, text, repeats=3):
    """The status, the least processor time of some runs over a text, the greatest peak, and what the last one printed."""
    seconds, peak = None, 0
    for _ in range(repeats):
        with tempfile.TemporaryFile() as given, tempfile.TemporaryFile() as output:
            given.write(text)
            given.seek(0)
            child = subprocess.Popen(words, stdin=given, stdout=output, stderr=subprocess.DEVNULL)
            _, status, usage = os.wait4(child.pid, 0)
            output.seek(0)
            said = output.read().decode().split()
        taken = usage.ru_utime + usage.ru_stime
        seconds = taken if seconds is None else min(seconds, taken)
        peak = max(peak, usage.ru_maxrss / 1024)
    return os.waitstatus_to_exitcode(status), seconds, peak, said


def front():
    """The processor time of each text and of a tenth of it, and how long the stages take of which it has some."""
    if not os.access(FRONT_SPEED, os.X_OK):
        sys.exit("bench: front_speed is not built: run rt run in crates/front_speed once")
    print("%-14s %6s %9s %8s %9s %7s  %s" % ("text", "status", "bytes", "seconds", "a tenth", "MiB", "after each stage"))
    wrong = 0
    for last, wanted, make in TEXTS:
        text = make(LIMIT).encode()
        status, seconds, peak, _ = least([FRONT_SPEED, last], text)
        part = least([FRONT_SPEED, last], make(LIMIT // 10).encode())[1]
        stages = ["%s %.2f" % (stage, least([FRONT_SPEED, stage], text)[1]) for stage in STAGES[:STAGES.index(last)]]
        print("%-14s %6d %9d %8.2f %9.3f %7.0f  %s" % (make.__name__, status, len(text), seconds, part, peak, ", ".join(stages)), flush=True)
        wrong += status != wanted
    return failed(wrong)


def counts_of(text, stage="lowered", times=1):
    """What pass_speed says of a kernel: its measures, and then what it comes to."""
    status, seconds, _, said = least([PASS_SPEED, stage, str(times)], text.encode(), 1 if times == 1 else 3)
    return status, seconds, [int(number) for number in said]


def largest_count(piece):
    """How many times a body may stand in a kernel, by its nodes and its variables."""
    status, _, once = counts_of(kernel(piece, 1), "program")
    if status:
        return 0
    twice = counts_of(kernel(piece, 2), "program")[2]
    room = [(most - one) // (two - one) for most, one, two in ((16_384, once[0], twice[0]), (256, once[1], twice[1])) if two > one]
    return 1 + min(room)


def show_passes(name, text):
    """Prints the processor time of a kernel up to each pass, without that of its text."""
    _, none, said = counts_of(text, "program", TIMES)
    taken = [(counts_of(text, stage, TIMES)[1] - none) / TIMES * 1000 for stage in ("structured", "uniform", "lowered")]
    print("%-44s %6d   structured %.2f, uniform %.2f, lowered %.2f" % (name, said[0], *taken), flush=True)


def passes():
    """The words of a node and the registers of each kernel of the family, and the time that the largest take."""
    if not os.access(PASS_SPEED, os.X_OK):
        sys.exit("bench: pass_speed is not built: run rt run in crates/pass_speed once")
    found, wrong = [], 0
    for name, piece in family():
        count = largest_count(piece)
        status, _, said = counts_of(kernel(piece, max(count, 1)))
        if status or not count:
            print("refused: " + name)
            wrong += 1
            continue
        nodes, variables, depth, control, calls, _, _, _, registers, words = said
        bound = variables + 2 * depth + 4 * control + 2 * calls + 16
        wrong += words > 40 * nodes + 256 or registers > bound
        found.append((words / nodes, bound - registers, name, piece, count, nodes, words, registers, bound))
    print("%d kernels; words a node: at most %.2f; registers: at least %d below their bound" % (
        len(found), max(found)[0], min(room for _, room, *_ in found)))
    print("%-44s %6s %6s %6s %5s %5s   %s" % ("the most words a node", "nodes", "words", "a node", "regs", "bound", "of 40 N + 256"))
    for ratio, _, name, piece, count, nodes, words, registers, bound in sorted(found, reverse=True)[:8]:
        print("%-44s %6d %6d %6.2f %5d %5d   %.2f" % (name, nodes, words, ratio, registers, bound, words / (40 * nodes + 256)))
    print("%-44s %6s   %s" % ("the largest, and a tenth of it", "nodes", "milliseconds after each pass"))
    most = max(it[5] for it in found)
    for _, _, name, piece, count, *_ in sorted((it for it in found if it[5] > most * 0.99), reverse=True)[:6]:
        show_passes(name, kernel(piece, count))
        show_passes(name, kernel(piece, count // 10))
    for variables in (25, 250):
        show_passes("%d marks fall, one in a sweep" % variables, backward(variables, 16_384))
    return failed(wrong)


def main():
    if sys.argv[1:] == ["ports"]:
        return ports()
    if sys.argv[1:] == ["lanes"]:
        return lanes()
    if sys.argv[1:] == ["core"]:
        return core()
    if sys.argv[1:] == ["text"]:
        return text()
    if sys.argv[1:] == ["front"]:
        return front()
    if sys.argv[1:] == ["passes"]:
        return passes()
    if not os.access(PROGRAM, os.X_OK):
        sys.exit("bench: the program is not built: run ./vx once")
    print("%-12s %8s %10s %12s" % ("input", "status", "seconds", "peak MiB"))
    wrong = 0
    for make, wanted in ((affine, 0), (largest, 0), (refused, 2), (build, 0), (build_tenth, 0), (assembly, 0), (disassembly, 0)):
        status, seconds, peak = measure(make)
        print("%-12s %8d %10.3f %12.1f" % (make.__name__, status, seconds, peak))
        wrong += status != wanted
    return failed(wrong)


if __name__ == "__main__":
    sys.exit(main())
