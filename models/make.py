#!/usr/bin/env python3
"""Writes the gallery: every .aag of this folder but windows.aag, which yosys made, and the table in README.md.

    python3 models/make.py                            writes the files; what `synth` printed stays if the circuit is the same
    python3 models/make.py --synth crates/synth/out/synth   also runs that program on each and puts what it prints into the comments
"""
import argparse
import os
import subprocess

import hosts

HERE = os.path.dirname(os.path.abspath(__file__))
PRINTS = "synth prints:"
UNKNOWN = ["(not run yet)"]

# Name, circuit, verdict, how many states are lost, and why.
GALLERY = [
    ("one-window", hosts.one_window(), "kept", 1,
     "The host shuts the window in every step. The state in which it is open is lost: nothing stops the plug-in from writing."),
    ("one-window-stuck", hosts.one_window(clears=False), "lost", 2,
     "The window is open after the first step, whatever the host answers, and the plug-in writes in the second."),
    ("windows-shared", hosts.shared_windows(plugins=4, windows=4), "kept", 64911,
     "The host grants exactly what nobody holds. Lost are the states in which two hold one window: a row for each window and each two."),
    ("windows-revoked", hosts.revoked_window(notice_steps=3, patience=3), "kept", 76,
     "The host tells the holder to leave in the step in which c asks. The holder is gone when c has waited 3 steps. Lost are the states\n"
     "in which two hold the window, and those in which the holder was told too late for c's patience."),
    ("windows-revoked-hasty", hosts.revoked_window(notice_steps=3, patience=2), "lost", 128,
     "As windows-revoked, but c waits 2 steps. a asks alone and has to be granted the window; then c asks, and a cannot be gone in time."),
    ("quota", hosts.quota(total=8, reserve=3), "kept", 31,
     "The host grants what is promised, and more only while the pages that are promised to the other one stay free: no more than 5 to\n"
     "one. Lost are the states with more than 8 pages in use, and those in which one has 6 or more."),
    ("quota-small", hosts.quota(total=5, reserve=3), "lost", 64,
     "As quota, but with 5 pages: 3 are promised to each of two."),
    ("watchdogs", hosts.watchdogs(count=2, limit=3), "kept", 15,
     "A call takes at most every other step. In the steps between the host feeds the two in turn, each every 4 steps. Lost are the\n"
     "states in which both are too hungry to wait for each other and for a call."),
    ("watchdogs-many", hosts.watchdogs(count=3, limit=3), "lost", 128,
     "As watchdogs, but with three: with a call in every other step a round takes 6 steps, and each has to be fed every 4."),
    ("queue", hosts.queue(length_bits=4, mark=8), "kept", 7,
     "The host tells them to hold whenever it may, at the latest with 9 messages. Until they hold 2 more come in each of two steps than\n"
     "are worked off; that makes 13. Lost are states in which the queue is nearly full and the plug-ins are not about to hold."),
    ("queue-late", hosts.queue(length_bits=4, mark=12), "lost", 64,
     "As queue, but the host may tell them to hold from 12 messages on: with 11 it may not, then there are 13, and 17 two steps later."),
    ("queue-long", hosts.queue(length_bits=8, mark=128), "kept", 7,
     "As queue, with more places. As many states are lost as there: what matters is how near the end is."),
    ("two-queues", hosts.two_queues(length_bits=2, rests=True), "kept", 10,
     "For each message the worker has one step to go over and one to work it off."),
    ("two-queues-busy", hosts.two_queues(length_bits=2, rests=False), "lost", 32,
     "As two-queues, but a message may come in every step. When the worker goes over none is worked off, and messages come for the queue\n"
     "at which it does not stand, until one is full."),
    ("arbiter", hosts.arbiter(count=4, patience=3), "kept", 131,
     "The host lets the one that has waited longest. If all four ask at once the last is let after 3 steps. Lost are the states in which\n"
     "more have waited for long than can be let in time."),
    ("arbiter-hasty", hosts.arbiter(count=4, patience=2), "lost", 256,
     "As arbiter, but nobody waits more than 2 steps. If all four ask at once, the last is late."),
    ("priority-lock", hosts.priority_lock(work=2), "kept", 34,
     "When high or medium waits, the host runs low until the lock is free, then high, then medium. Lost are the states in which high has\n"
     "waited and low still needs the lock for too long, as when medium ran first."),
    ("priority-lock-long", hosts.priority_lock(work=3), "lost", 64,
     "As priority-lock, but low needs the lock for 3 steps. High and medium ask when low has just got it; then both have waited 3 steps\n"
     "when the lock is free, and only one can run."),
    ("calls", hosts.calls(frames=7, welcome=3), "kept", 44,
     "The host lets a call through where a frame for it, for its claim and for every other claim is left. The first three calls need 6\n"
     "frames with their claims. Lost are the states with more frames and claims together than the stack has."),
    ("calls-welcome", hosts.calls(frames=7, welcome=4), "lost", 64,
     "As calls, but no call is refused with less than 4 frames in use: four calls with their claims need 8 frames."),
    ("budget", hosts.budget(refill=4), "kept", 36,
     "In four steps the host spends 2 units on an urgent request and 2 on plain ones, of which it puts off every other one; 4 come back."),
    ("budget-poor", hosts.budget(refill=3), "lost", 128,
     "As budget, but 3 units come back: in four steps the plug-in can make the host spend 4."),
    ("deadlines", hosts.deadlines(lanes=2), "kept", 131,
     "Two runs are started in every other step, those that have waited longest first. Lost are the states in which more have waited for\n"
     "long than there are free lanes in time, and those that count three busy lanes."),
    ("deadlines-one-lane", hosts.deadlines(lanes=1), "lost", 256,
     "As deadlines, but with one lane. If all three ask at once, they are started in the first, third and fifth step, and the last is late."),
    ("hand-over", hosts.hand_over(patience=4), "kept", 83,
     "The host asks the owner in the step in which the other one wants the window. a acknowledges at the latest 3 steps later, and in\n"
     "the step after that the window moves. Lost are the states in which the owner was asked too late."),
    ("hand-over-hasty", hosts.hand_over(patience=3), "lost", 256,
     "As hand-over, but nobody waits more than 3 steps: a's acknowledgement can come in the last of them, and the window moves after it."),
    ("one-hand", hosts.one_hand(limit=3, length_bits=2), "kept", 21,
     "In four steps the host feeds once, grants once and works two messages off. Lost are the states in which too much is due at a time."),
    ("one-hand-hungry", hosts.one_hand(limit=2, length_bits=2), "lost", 128,
     "As one-hand, but the watchdog is fed in every third step: with a message in every other step and a grant in every fourth that is\n"
     "more than one thing to do in a step, and the queue gets full."),
    ("whole-host", hosts.whole_host(limit=3, plugins=2, windows=2), "kept", 1041,
     "As one-hand, and a window is granted only if nobody holds it."),
]


def printed_in(text):
    """What stands after the last heading, or nothing."""
    return text.split(f"\n{PRINTS}\n", 1)[1].rstrip("\n").split("\n") if f"\n{PRINTS}\n" in text else None


def refilled(text, printed):
    return text.split(f"\n{PRINTS}\n", 1)[0] + f"\n{PRINTS}\n" + "\n".join(printed) + "\n"


def run(synth, text):
    done = subprocess.run([synth], input=text.encode(), capture_output=True)
    return done.stdout.decode().rstrip("\n").split("\n")


def table(made):
    """The gallery as a table, by the files' own words."""
    lines = ["| model | latches | event inputs | answer inputs | gates | verdict | lost states |", "|---|---|---|---|---|---|---|"]
    for name, text in sorted(made.items()):
        head = text.split("\n", 1)[0].split()
        answers = text.split("\nc\n")[0].count(" controllable_")
        verdict, lost = text.split("\nVerdict: ")[1].split("\n")[0].split(", ")
        lost = lost.replace(" lost states", "")
        lines.append(f"| [{name[:-4]}]({name}) | {head[3]} | {int(head[2]) - answers} | {answers} | {head[5]} | {verdict} | {lost} |")
    return "\n".join(lines) + "\n"


def text_of(circuit, verdict, lost, why):
    states = 1 << len(circuit.latches)
    lines = [f"Verdict: {verdict}, {lost} lost states of {states}", *why.split("\n"), "", PRINTS, *UNKNOWN]
    return circuit.text() + "\n" + "\n".join(lines) + "\n"


def main():
    p = argparse.ArgumentParser()
    p.add_argument("--synth", help="the program to run on each model")
    asked = p.parse_args()
    made = {f"{name}.aag": text_of(*rest) for name, *rest in GALLERY}
    made["windows.aag"] = open(os.path.join(HERE, "windows.aag")).read()
    for name, text in made.items():
        path = os.path.join(HERE, name)
        before = open(path).read() if os.path.exists(path) else ""
        if asked.synth:
            text = refilled(text, run(asked.synth, text))
        elif before.split("\nc\n")[0] == text.split("\nc\n")[0]:
            text = refilled(text, printed_in(before) or UNKNOWN)
        with open(path, "w") as f:
            f.write(text)
    path = os.path.join(HERE, "README.md")
    before = open(path).read()
    with open(path, "w") as f:
        f.write(before.split("\n| model |")[0] + "\n" + table(made))


if __name__ == "__main__":
    main()
