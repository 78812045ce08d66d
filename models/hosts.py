"""Hosts, each a function from its sizes to a circuit. make.py makes the gallery of them, and the benchmarks make larger ones."""
from circuit import Circuit, Number, any_of, choose, two_of

LETTERS = "abcdefgh"


def bits_for(count):
    """How many bits the numbers below the count need."""
    return max(1, (count - 1).bit_length())


def one_window(clears=True):
    c = Circuit("The smallest host: one window that is left open unless the host shuts it." if clears
                else "The smallest lost host: one window that the host cannot shut.")
    write = c.event("write", "the plug-in writes")
    shut = c.answer("shut", "the host shuts the window")
    is_open = c.latch("open", "the window is open")
    is_open.next = ~shut if clears else c.true
    c.bad("the plug-in writes while the window is open", is_open & write)
    return c


def shared_windows(plugins, windows):
    c = Circuit(f"{plugins} plug-ins share {windows} windows for writing. In each step one of them asks for one window or hands it back.")
    who = c.event("who", "the plug-in, from 0", bits_for(plugins))
    which = c.event("which", "the window, from 0", bits_for(windows))
    back = c.event("back", "it hands the window back; else it asks for it")
    grant = c.answer("grant", "the host grants what is asked for")
    holds = [[c.latch(f"holds_{p}_{w}", f"plug-in {p} holds window {w}") for p in range(plugins)] for w in range(windows)]
    refused = []
    for w in range(windows):
        for p in range(plugins):
            meant = who.equals(p) & which.equals(w)
            holds[w][p].next = choose(meant, ~back & (grant | holds[w][p]), holds[w][p])
        refused.append(which.equals(w) & ~any_of(holds[w]))
    c.bad("two plug-ins hold one window", any_of([two_of(h) for h in holds]))
    c.bad("a window that nobody holds is asked for and not granted", ~back & ~grant & any_of(refused))
    return c


def revoked_window(notice_steps, patience):
    c = Circuit(f"Three plug-ins share one window for writing. c is urgent. a and b can be told to leave: they do so {notice_steps} steps later.\n"
                f"c waits at most {patience} steps.")
    ask = {p: c.event(f"ask_{p}", f"{p} asks for the window") for p in "abc"}
    back = c.event("back", "whoever holds the window hands it back")
    grant = {p: c.answer(f"grant_{p}", f"the host grants it to {p}") for p in "abc"}
    revoke = c.answer("revoke", "the host tells a or b to leave")
    holds = {p: c.latch(f"holds_{p}", f"{p} holds the window") for p in "abc"}
    notice = c.latch("notice", "steps since the holder was told to leave, 0 if it was not", bits_for(notice_steps + 1))
    wait = c.latch("wait", "steps that c has waited, 0 if it does not wait", bits_for(patience + 1))
    leaves = back | notice.at_least(notice_steps)
    held = holds["a"] | holds["b"]
    free = ~held & ~holds["c"]
    wants = (ask["c"] | wait.at_least(1)) & ~holds["c"]
    for p in "ab":
        holds[p].next = (holds[p] & ~leaves) | (ask[p] & grant[p])
    holds["c"].next = (holds["c"] & ~back) | (wants & grant["c"])
    told = choose(notice.at_least(1), notice.up(), Number([revoke] + [c.false] * (len(notice.bits) - 1)))
    notice.next = told.where(held & ~leaves)
    wait.next = wait.up().where(wants & ~grant["c"])
    c.bad("two of them hold the window", two_of(holds.values()))
    c.bad(f"c has waited {patience} steps and is not granted the window", wait.at_least(patience) & wants & ~grant["c"])
    c.bad("a or b alone asks for a window that nobody holds, and is not granted it",
          free & ~wants & any_of([ask[p] & ~ask[q] & ~grant[p] for p, q in ("ab", "ba")]))
    c.bad("one is told to leave though c does not wait", revoke & ~wants)
    return c


def quota(total, reserve):
    c = Circuit(f"Two plug-ins take pages of memory, one at a time. There are {total} pages; {reserve} are promised to each of them.")
    who = c.event("who", "0: a, 1: b")
    back = c.event("back", "it hands a page back; else it asks for one")
    grant = c.answer("grant", "the host grants the page")
    used = [c.latch(f"used_{p}", f"pages that {p} has", 3) for p in "ab"]
    meant = [~who, who]
    for u, m in zip(used, meant):
        u.next = choose(m & back, u.down(), choose(m & ~back & grant, u.up(), u))
    c.bad(f"the two have more than {total} pages together", (used[0] + used[1]).at_least(total + 1))
    c.bad(f"one that has less than {reserve} pages asks and is refused",
          ~back & ~grant & any_of([m & ~u.at_least(reserve) for u, m in zip(used, meant)]))
    return c


def watchdogs(count, limit):
    c = Circuit(f"{count} watchdogs must be fed. A plug-in's call takes a whole step in which the host feeds none, but two calls never follow each other.")
    call = c.event("call", "a plug-in calls; it is not heard in the step after a call")
    feed = c.answer("feed", f"which watchdog is fed: 1 to {count} that one, else none", bits_for(count + 1))
    called = c.latch("called", "the step before was a call")
    hungry = [c.latch(f"hungry_{i + 1}", f"steps since watchdog {i + 1} was fed", bits_for(limit + 1)) for i in range(count)]
    taken = call & ~called
    called.next = taken
    fed = [feed.equals(i + 1) & ~taken for i in range(count)]
    for h, f in zip(hungry, fed):
        h.next = h.up().where(~f)
    c.bad(f"a watchdog was not fed for {limit} steps, and is not fed in this one", any_of([h.at_least(limit) & ~f for h, f in zip(hungry, fed)]))
    return c


def queue(length_bits, mark, delay=2, burst_bits=2):
    most = (1 << length_bits) - 1
    c = Circuit(f"A queue of {most} places. Up to {(1 << burst_bits) - 1} messages come in a step, and one is worked off. The host can tell the\n"
                f"plug-ins to hold, which they do {delay} steps later, but not while the queue has less than {mark} messages.")
    come = c.event("come", "how many messages come, unless the plug-ins hold", burst_bits)
    hold = c.answer("hold", "the host tells the plug-ins to hold")
    length = c.latch("length", "messages in the queue", length_bits)
    told = [c.latch(f"told_{i + 1}", f"the host told them to hold {i + 1} step{'s' if i else ''} ago") for i in range(delay)]
    for i, t in enumerate(told):
        t.next = told[i - 1] if i else hold
    after = length + come.where(~told[-1])
    after = after.down()
    length.next = after.narrow(length_bits)
    c.bad(f"more than {most} messages would be in the queue", after.at_least(most + 1))
    c.bad(f"the host tells them to hold while there are less than {mark}", hold & ~length.at_least(mark))
    return c


def two_queues(length_bits, rests):
    most = (1 << length_bits) - 1
    c = Circuit(f"Two queues of {most} places and one worker, who works off one message of the queue at which it stands, or goes to the other one.\n"
                + ("After a message there is a step in which none comes." if rests else "A message may come in every step."))
    come = c.event("come", "a message comes" + (", unless one came in the step before" if rests else ""))
    where = c.event("where", "for which queue: 0 a, 1 b")
    go = c.answer("go", "the worker goes to the other queue and works nothing off")
    length = [c.latch(f"length_{q}", f"messages in queue {q}", length_bits) for q in "ab"]
    at = c.latch("at", "where the worker stands: 0 a, 1 b")
    comes = come
    if rests:
        came = c.latch("came", "a message came in the step before")
        comes = come & ~came
        came.next = comes
    at.next = at ^ go
    over = []
    for q, here, meant in ((length[0], ~at, ~where), (length[1], at, where)):
        served, more = here & ~go & q.at_least(1), comes & meant
        q.next = choose(served, q.down(~more), q.up(more))
        over.append(more & ~served & q.equals(most))
    c.bad("a message comes for a full queue of which none is worked off", any_of(over))
    return c


def arbiter(count, patience):
    c = Circuit(f"{count} plug-ins ask for one device. The host lets one of them use it in each step; who asked waits until it is let.")
    ask = [c.event(f"ask_{p}", f"{p} asks for the device") for p in LETTERS[:count]]
    grant = c.answer("grant", f"who may use it: 1 to {count} the plug-ins a to {LETTERS[count - 1]}, else nobody", bits_for(count + 1))
    wait = [c.latch(f"wait_{p}", f"steps that {p} has waited, 0 if it does not wait", bits_for(patience + 1)) for p in LETTERS[:count]]
    late = []
    for i, (a, w) in enumerate(zip(ask, wait)):
        wants, let = a | w.at_least(1), grant.equals(i + 1)
        w.next = w.up().where(wants & ~let)
        late.append(w.at_least(patience) & ~let)
    c.bad(f"a plug-in has waited {patience} step{'s' if patience > 1 else ''} and may not use it in this one", any_of(late))
    return c


def priority_lock(work, patience=3):
    c = Circuit(f"Three plug-ins of low, medium and high rank share a processor, and low and high share a lock. Low takes the lock for {work} steps of\n"
                f"its own; high needs one step while the lock is free; medium needs one step and no lock.")
    asks = {p: c.event(f"ask_{p}", f"{p} asks to run") for p in ("low", "medium", "high")}
    run = c.answer("run", "who runs: 0 nobody, 1 low, 2 medium, 3 high", 2)
    admit = c.answer("admit", "low, which asks, gets the lock")
    low = c.latch("low", "steps that low still needs the lock, 0 if it has it not", bits_for(work + 1))
    wait = {p: c.latch(f"wait_{p}", f"steps that {p} has waited, 0 if it does not wait", bits_for(patience + 1)) for p in ("medium", "high")}
    free = low.equals(0)
    wants = {p: asks[p] | wait[p].at_least(1) for p in wait}
    ran = {"medium": run.equals(2), "high": run.equals(3) & free}
    low.next = choose(free, low.constant(work).where(asks["low"] & admit), low.down(run.equals(1)))
    for p in wait:
        wait[p].next = wait[p].up().where(wants[p] & ~ran[p])
    c.bad(f"medium or high has waited {patience} steps and does not run in this one", any_of([wait[p].at_least(patience) & ~ran[p] for p in wait]))
    c.bad("high runs while low has the lock", run.equals(3) & ~free)
    c.bad("low asks for a free lock while nobody else waits or asks, and does not get it",
          asks["low"] & free & ~wants["medium"] & ~wants["high"] & ~admit)
    return c


def calls(frames, welcome):
    c = Circuit(f"Plug-ins call each other through the host, which has a stack of {frames} frames. Who was called may call back once, and that cannot be\n"
                f"refused: it is a claim on a frame. With less than {welcome} frames in use no call is refused.")
    what = c.event("what", "0 a call, 1 a call back, 2 a return, 3 a return that gives up its claim", 2)
    allow = c.answer("allow", "the host lets the call through")
    plain = c.latch("plain", "frames without a claim", bits_for(frames + 1))
    owed = c.latch("owed", "frames with a claim: who has one may still call back", bits_for(frames + 1))
    used = plain + owed
    call = what.equals(0) & allow
    back = what.equals(1) & owed.at_least(1)
    plain.next = choose(back, plain.up().up(), plain.down(what.equals(2)))
    owed.next = choose(call, owed.up(), owed.down(back | what.equals(3)))
    c.bad("a frame is needed and all are in use", (call | back) & used.at_least(frames))
    c.bad(f"a call is refused while less than {welcome} frames are in use", what.equals(0) & ~allow & ~used.at_least(welcome))
    return c


def budget(refill, size_bits=3):
    most = (1 << size_bits) - 1
    c = Circuit(f"A plug-in has a budget of {most} units. Every fourth step {refill} units come back. An urgent request costs 2 and is run at once, but comes\n"
                f"only once in four steps; a plain one costs 1 and may be put off, but not in two steps running.")
    urgent = c.event("urgent", "an urgent request, unless there was one since units came back")
    plain = c.event("plain", "a plain request")
    run = c.answer("run", "the host runs the plain request")
    spent = c.latch("spent", "units that are spent", size_bits)
    tick = c.latch("tick", "steps since units came back", 2)
    was_urgent = c.latch("was_urgent", "there was an urgent request since then")
    put_off = c.latch("put_off", "a plain request was put off in the step before")
    now = urgent & ~was_urgent
    last = tick.equals(3)
    after = spent + Number([plain & run, now])
    tick.next = choose(last, tick.constant(0), tick.up())
    was_urgent.next = (was_urgent | now) & ~last
    put_off.next = plain & ~run
    spent.next = choose(last, after.less(refill), after).narrow(size_bits)
    c.bad(f"more than {most} units are spent", after.at_least(most + 1))
    c.bad("a plain request is put off in two steps running", put_off & plain & ~run)
    return c


def deadlines(lanes, patience=3):
    c = Circuit(f"Three plug-ins ask for runs of two steps each. There {'are two lanes' if lanes == 2 else 'is one lane'} to run them in. Who asked waits until it is started.")
    ask = [c.event(f"ask_{p}", f"{p} asks for a run") for p in "abc"]
    start = [c.answer(f"start_{p}", f"the host starts a run of {p}") for p in "abc"]
    busy = c.latch("busy", "lanes with a run that is in its second step", 2)
    wait = [c.latch(f"wait_{p}", f"steps that {p} has waited, 0 if it does not wait", bits_for(patience + 1)) for p in "abc"]
    started = (Number([start[0]]) + Number([start[1]])) + Number([start[2]])
    busy.next = started.narrow(2)
    late = []
    for a, s, w in zip(ask, start, wait):
        w.next = w.up().where((a | w.at_least(1)) & ~s)
        late.append(w.at_least(patience) & ~s)
    c.bad("more runs are started than lanes are free", (busy + started).at_least(lanes + 1))
    c.bad(f"a plug-in has waited {patience} steps and is not started in this one", any_of(late))
    return c


def hand_over(patience, slow=3, fast=1):
    c = Circuit(f"A window goes to and fro between a and b. The host asks the owner to hand over, the owner acknowledges, and only then the window\n"
                f"moves. a acknowledges within {slow} steps and b within {fast}; the other one waits at most {patience} steps.")
    want = c.event("want", "the one that has not the window wants it")
    ack = c.event("ack", "the owner acknowledges, if it was asked to hand over")
    offer = c.answer("ask_owner", "the host asks the owner to hand over")
    move = c.answer("move", "the window moves to the other one")
    owner = c.latch("owner", "who has the window: 0 a, 1 b")
    asked = c.latch("asked", "the owner was asked to hand over")
    age = c.latch("age", "steps since then without acknowledgement", bits_for(slow))
    acked = c.latch("acked", "the owner has acknowledged")
    wait = c.latch("wait", "steps that the other one has waited, 0 if it does not wait", 3)
    wants = want | wait.at_least(1)
    due = choose(owner, age.at_least(fast - 1), age.at_least(slow - 1))
    acks = asked & ~acked & (ack | due)
    owner.next = owner ^ move
    asked.next = (asked | offer) & ~move
    acked.next = (acked | acks) & ~move
    age.next = age.up().where(asked & ~acked & ~acks & ~move)
    wait.next = wait.up().where(wants & ~move)
    c.bad("the window moves without acknowledgement", move & ~acked)
    c.bad("the owner is asked to hand over though nobody wants the window", offer & ~wants)
    c.bad(f"the other one has waited {patience} steps and the window does not move", wait.at_least(patience) & ~move)
    return c


def one_hand(limit, patience=3, length_bits=3):
    most = (1 << length_bits) - 1
    c = Circuit(f"A host with one hand: in each step it feeds the watchdog, works a message off, or grants the window. A message comes at most in\n"
                f"every other step, into a queue of {most} places. The watchdog is fed at least every {limit + 1} steps; who asks for the window waits at most\n"
                f"{patience} steps, and hands it back at once.")
    come = c.event("come", "a message comes, unless one came in the step before")
    ask = c.event("ask", "a plug-in asks for the window")
    do = c.answer("do", "0 nothing, 1 feed the watchdog, 2 work a message off, 3 grant the window", 2)
    hungry = c.latch("hungry", "steps since the watchdog was fed", bits_for(limit + 1))
    length = c.latch("length", "messages in the queue", length_bits)
    came = c.latch("came", "a message came in the step before")
    wait = c.latch("wait", "steps that a plug-in has waited for the window, 0 if none waits", bits_for(patience + 1))
    comes, served = come & ~came, do.equals(2) & length.at_least(1)
    hungry.next = hungry.up().where(~do.equals(1))
    length.next = choose(served, length.down(~comes), length.up(comes))
    came.next = comes
    wait.next = wait.up().where((ask | wait.at_least(1)) & ~do.equals(3))
    c.bad(f"the watchdog was not fed for {limit} steps, and is not fed in this one", hungry.at_least(limit) & ~do.equals(1))
    c.bad("a message comes for the full queue and none is worked off", comes & ~served & length.equals(most))
    c.bad(f"a plug-in has waited {patience} steps and is not granted the window in this one", wait.at_least(patience) & ~do.equals(3))
    return c


def whole_host(limit, plugins=3, windows=2, patience=3, length_bits=2):
    most = (1 << length_bits) - 1
    c = Circuit(f"A whole host with one hand: in each step it feeds the watchdog, works a message off, or grants a window. {plugins} plug-ins share {windows} windows.\n"
                f"A message comes at most in every other step, into a queue of {most} places. The watchdog is fed at least every {limit + 1} steps.")
    come = c.event("come", "a message comes, unless one came in the step before")
    ask = c.event("ask", "a plug-in asks for a window")
    back = c.event("back", "a plug-in hands a window back, if none asks")
    who = c.event("who", "which plug-in asks or hands back, from 0", bits_for(plugins))
    which = c.event("which", "which window, from 0", bits_for(windows))
    do = c.answer("do", "0 nothing, 1 feed the watchdog, 2 work a message off, 3 grant the window that is asked for", 2)
    holds = [[c.latch(f"holds_{p}_{w}", f"plug-in {p} holds window {w}") for p in range(plugins)] for w in range(windows)]
    hungry = c.latch("hungry", "steps since the watchdog was fed", bits_for(limit + 1))
    length = c.latch("length", "messages in the queue", length_bits)
    came = c.latch("came", "a message came in the step before")
    wait = c.latch("wait", "how often a free window was asked for since one was granted", bits_for(patience + 1))
    comes, served, grants = come & ~came, do.equals(2) & length.at_least(1), ask & do.equals(3)
    for w in range(windows):
        for p in range(plugins):
            meant = who.equals(p) & which.equals(w)
            holds[w][p].next = (holds[w][p] | (grants & meant)) & ~(meant & back & ~ask)
    free = ask & any_of([which.equals(w) & ~any_of(holds[w]) for w in range(windows)])
    hungry.next = hungry.up().where(~do.equals(1))
    length.next = choose(served, length.down(~comes), length.up(comes))
    came.next = comes
    wait.next = choose(free, wait.up(), wait).where(~grants)
    c.bad("two plug-ins hold one window", any_of([two_of(h) for h in holds]))
    c.bad(f"the watchdog was not fed for {limit} steps, and is not fed in this one", hungry.at_least(limit) & ~do.equals(1))
    c.bad("a message comes for the full queue and none is worked off", comes & ~served & length.equals(most))
    c.bad(f"a free window was asked for {patience} times, is asked for again and not granted", free & wait.at_least(patience) & ~grants)
    return c
