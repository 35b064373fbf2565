"""Sessions of GDB itself over sbigdb, where GDB is one for x86-64 and tools/gdb-adapter stands between, for tools/trials/try-sbigdb.

Beside each command of GDB stand the packets by which a reader of its own (gdb_talk.py) asks the same of a second sbigdb. After each
command GDB must show the thread and the pc that this reader has then, and at the end the same script (`monitor script`) and what sbibench
shows at the end of that. No transcript may hold a word of GDB's about a packet that it did not take.
"""
import os
import re
import shlex
import shutil
import signal
import subprocess
import tempfile
import time

from gdb_talk import Talk

TOP = os.path.dirname(os.path.dirname(os.path.dirname(os.path.abspath(__file__))))
ADAPTER = os.path.join(TOP, "tools", "gdb-adapter")
DATA = os.path.join(TOP, "crates", "sbigdb", "data")
FAULTS = ("Ignoring packet error", "Bogus trace status", "Remote connection closed", "Reply contains invalid", "internal-error",
          "Remote failure reply", "replied unexpectedly", "Cannot ", "unrecognized", "rror in", "imed out", "nexpected")
NAMES = "zero ra rsp gp tp t0 t1 t2 rbp s1 a0 a1 a2 a3 a4 a5 a6 a7 s2 s3 s4 s5 s6 s7 s8 s9 s10 s11 t3 t4 t5 t6 pc".split()
FIRST, WORDS = 0x80000100, 40
CREW = [f"{DATA}/crew.sbi", "--p0", f"{DATA}/crew.bin", "--quantum", "20"]

# crew.c: add begins at 80000034, gathered at 800000e4; the cells of 16 bytes from 800001f0 on begin with their sums
CONDITIONS = [
    ("break add if hart == 2", "", "Breakpoint 1 at 0x80000034"),
    ("continue", "until:80000034:a:2", r'Thread 3 "hart 2" hit Breakpoint 1, add \(hart=hart@entry=2, amount=3'),
    ("print cells[2].sum", "", r"= 0\b"),
    # GDB first steps the hart back that stands at the breakpoint, and then the one that is selected
    ("thread 1", "T1 Hg1", "Switching to thread 1"),
    ("reverse-stepi", "Hc3 bs T1 Hc0 bs", "^0x"),
    ("delete", "", ""),
    ("thread 1", "T1 Hg1", "Switching to thread 1"),
    ("reverse-stepi", "Hc0 bs", "^0x"),
    ("stepi", "vCont;s:1", "^0x"),
    ("stepi 5", "vCont;s:1 vCont;s:1 vCont;s:1 vCont;s:1 vCont;s:1", ""),
    ("reverse-stepi 3", "bs bs bs", ""),
    ("break *0x80000034 if $_thread == 4", "", "Breakpoint 2 at"),
    ("continue", "until:80000034:thread:4", 'Thread 4 "hart 3" hit Breakpoint 2'),
    ("stepi", "z0,80000034,1 vCont;s:4", "^0x"),
    ("delete", "", ""),
    ("hbreak *0x80000034 if $a0 == 3", "", "Hardware assisted breakpoint 3"),
    ("continue", "until:80000034:a:3", 'Thread 4 "hart 3" hit Breakpoint 3'),
    ("delete", "", ""),
    ("info threads", "", r'\* 4 +Thread 4 "hart 3" \(STARTED\)'),
    ("reverse-continue", "Hc0 bc", "No more reverse-execution history"),
    ("reverse-stepi", "bs", "No more reverse-execution history"),
    ("monitor goto 150", "monitor:goto 150", "turn 150, hart"),
]
WATCHES = [
    ("watch cells[1].sum", "Z2,80000200,8", "Hardware watchpoint 1"),
    ("watch cells[2].sum", "Z2,80000210,8", "Hardware watchpoint 2"),
    ("watch cells[3].sum", "Z2,80000220,8", "Hardware watchpoint 3"),
    ("continue", "vCont;c", r"Hardware watchpoint 1: cells\[1\].sum\s+Old value = 0\s+New value = 2\b"),
    ("continue 4", "vCont;c vCont;c vCont;c vCont;c", r"watchpoint 1: cells\[1\].sum\s+Old value = 8\s+New value = 10\b"),
    ("continue", "vCont;c", r"Hardware watchpoint 2: cells\[2\].sum\s+Old value = 0\s+New value = 3\b"),
    ("continue 5", "vCont;c vCont;c vCont;c vCont;c vCont;c", r"watchpoint 3: cells\[3\].sum\s+Old value = 0\s+New value = 4\b"),
    ("reverse-continue", "Hc0 bc", r"watchpoint 3: cells\[3\].sum\s+Old value = 4\s+New value = 0\b"),
    ("reverse-continue", "bc", r"watchpoint 2: cells\[2\].sum\s+Old value = 15\s+New value = 12\b"),
    ("delete", "z2,80000200,8 z2,80000210,8 z2,80000220,8", ""),
    ("rwatch cells[3].sum", "Z3,80000220,8", "Hardware read watchpoint 4"),
    ("continue", "vCont;c", r"Hardware read watchpoint 4: cells\[3\].sum\s+Value = 0\b"),
    ("continue", "vCont;c", r"Hardware read watchpoint 4: cells\[3\].sum\s+Value = 4\b"),
    ("reverse-continue", "Hc0 bc", r"Hardware read watchpoint 4: cells\[3\].sum\s+Value = 4\b"),
    ("delete", "z3,80000220,8", ""),
    ("awatch cells[3].sum", "Z4,80000220,8", r"Hardware access \(read/write\) watchpoint 5"),
    ("continue", "vCont;c", r"watchpoint 5: cells\[3\].sum\s+Value = 4\b"),
    ("continue", "vCont;c", r"watchpoint 5: cells\[3\].sum\s+Old value = 4\s+New value = 8\b"),
    ("reverse-continue", "Hc0 bc", r"watchpoint 5: cells\[3\].sum\s+Old value = 8\s+New value = 4\b"),
    ("reverse-continue", "bc", r"watchpoint 5: cells\[3\].sum\s+Value = 4\b"),
]
WORDS_OF_MONITOR = [
    ("thread 2", "T2 Hg2", "Switching to thread 2"),
    ("stepi", "vCont;s:2", "hart 1 has nothing to do: it is STOPPED"),
    ("stepi", "vCont;s:2", "hart 1 has nothing to do: it is STOPPED"),
    ("thread 1", "T1 Hg1", "Switching to thread 1"),
    ("monitor turn 0 60", "monitor:turn 0 60", "turn 0 60 next"),
    ("monitor when", "monitor:when", "life 1, line 4, turn 60, hart 0"),
    ("monitor goto 10", "monitor:goto 10", "turn 10, hart 0"),
    ("stepi", "vCont;s:1", "^0x"),
    ("monitor when", "monitor:when", "turn 11, hart 0"),
    ("monitor goto 100", "monitor:goto 100", "turn 100, hart"),
    ("monitor harts", "monitor:harts", "hart 3 pc 0x"),
    ("monitor nonsense", "monitor:nonsense", "not a line of the script language"),
    ("monitor goto 1x", "monitor:goto 1x", "not a line of the script language"),
    ("checkpoint", "", "sbigdb has no checkpoints"),
    ("info threads", "", r'Thread 4 "hart 3" \('),
    ("info mem", "", "0x0000000080000000"),
    # over an ecall, by which hart 0 starts hart 1
    ("monitor goto 0", "monitor:goto 0", "turn 0"),
    ("tbreak *0x80000190", "", "Temporary breakpoint 1"),
    ("continue", "Z0,80000190,1 vCont;c z0,80000190,1", "hit Temporary breakpoint 1"),
    ("stepi", "step", r"^88\t"),
    ("info threads", "", r'"hart 1" \(START_PENDING\)'),
    ("print total", "", r"= 0\b"),
    ("reverse-stepi", "Hc0 bs", r"^26\t.*ecall"),
    ("info threads", "", r'"hart 1" \(STOPPED\)'),
    ("monitor cut 00", "monitor:cut 00", "^cut$"),
    ("continue", "vCont;c", "^off$[^@]*SIGPWR"),
    ("monitor on fresh", "monitor:on fresh", "^on fresh$"),
    ("tbreak gathered", "Z0,800000e4,1", "Temporary breakpoint"),
    ("continue", "vCont;c z0,800000e4,1", "hit Temporary breakpoint"),
    ("reverse-continue", "Hc0 bc", "No more reverse-execution history"),
    ("monitor goto 90", "monitor:goto 90", "turn 90, hart"),
]
# looks at other threads lie between: GDB has their registers, and shows none before it goes back
LOOKS = [
    ("stepi 4", "step step step step", "^0x"),
    ("info threads", "", r'\* 1 +Thread 1 "hart 0"'),
    ("reverse-stepi", "Hc0 bs", "^0x0*8000000c"),
    ("info threads", "", r'\* 1 +Thread 1 "hart 0"'),
    ("thread 1", "T1 Hg1", "Switching to thread 1"),
    ("reverse-stepi", "bs", "^0x0*80000008"),
    ("thread apply 1 2 3 print $pc", "", r"Thread 3 .*\n\$\d+ = "),
    ("reverse-stepi", "bs", "^0x0*80000004"),
]
# auipc t0, 0; addi t0, t0, 24; csrw stvec, t0; no instruction; ld t1, (zero); j .; and from 80000018 on what traps come to:
# csrr t1, scause; csrr t2, sepc; addi t2, t2, 4; csrw sepc, t2; sret
TRAPPING = [0x00000297, 0x01828293, 0x10529073, 0x00000000, 0x00003303, 0x0000006F,
            0x14202373, 0x141023F3, 0x00438393, 0x14139073, 0x10200073]
TRAPS = [
    ("stepi 3", "step step step", "^0x0*8000000c in"),
    ("stepi", "step", "^0x0*80000018 in"),
    ("print $scause", "", r"= 2\b"),
    ("print/x $sepc", "", "= 0x8000000c"),
    ("stepi 5", "step step step step step", "^0x0*80000010 in"),
    ("stepi", "step", "^0x0*80000018 in"),
    ("print $scause", "", r"= 5\b"),
    ("reverse-stepi", "Hc0 bs", "^0x0*80000010 in"),
    ("print $scause", "", r"= 2\b"),
    ("break *0x80000018", "", "Breakpoint 1 at"),
    ("reverse-continue", "Z0,80000018,1 bc z0,80000018,1", "^Breakpoint 1, 0x0*80000018"),
    ("stepi", "step", "^0x0*8000001c in"),
    ("continue", "Z0,80000018,1 vCont;c z0,80000018,1", "^Breakpoint 1, 0x0*80000018"),
    ("print $scause", "", r"= 5\b"),
]
# whatever the session begins with
BEGINS = [
    ("monitor when", "monitor:when", "^life 1, line"),
    ("info threads", "", "hart 0"),
    ("stepi", "step", ""),
    ("reverse-stepi", "Hc0 bs", ""),
    ("continue", "vCont;c", ""),
    ("reverse-continue", "Hc0 bc", "No more reverse-execution history"),
    ("monitor goto 70", "monitor:goto 70", ""),
]
SLOW = [
    ("stepi", "step", "^0x"),
    ("monitor when", "monitor:when", "^life 1"),
    ("monitor goto 15", "monitor:goto 15", "turn 15, hart 0"),
    ("stepi", "step", "^0x"),
]


class Reader:
    """A debugger's end of its own: what GDB is to ask, packet by packet."""

    def __init__(self, words):
        self.talk = Talk(words)
        self.thread = self.shown()

    def say(self, word):
        """The answer to a packet. Besides `step` of the thread that is shown, `monitor:LINE`, and `until:PC:WHAT:VALUE`: on until a hart
        comes there with that value, in `thread` or `a0`."""
        kind, _, rest = word.partition(":")
        if kind == "monitor":
            self.talk.monitor(rest)
            self.thread = self.shown()
        elif kind == "until":
            self.until(*rest.split(":"))
        else:
            answer = self.talk.ask(f"vCont;s:{self.thread}" if word == "step" else word)[0]
            if stop := re.match(r"T..thread:(\d+);", answer):
                self.thread = stop[1]
            elif word.startswith("Hg"):
                self.thread = word[2:]
            return answer

    def shown(self):
        """The thread that is shown."""
        return self.talk.ask("qC")[0][2:]

    def register(self, number):
        return int.from_bytes(bytes.fromhex(self.talk.ask(f"p{number:x}")[0]), "little")

    def until(self, place, what, value):
        self.say(f"Z0,{place},1")
        while True:
            if not self.say("vCont;c").startswith("T05"):
                return
            if (self.thread if what == "thread" else str(self.register(10))) == value:
                self.say(f"z0,{place},1")
                return
            self.say(f"z0,{place},1")
            self.say(f"vCont;s:{self.thread}")
            self.say(f"Z0,{place},1")

    def state(self):
        return self.thread, self.register(32)


def words_of_gdb(elf, target, commands, settings=()):
    """How GDB is started: as it comes, with these commands over that target."""
    first = ["set width 0", "set pagination off", f"source {DATA}/sbigdb.gdb", *settings]
    joined = " ".join(shlex.quote(word) for word in [ADAPTER, *target])
    lines = [*first, "target remote | " + joined, *commands]
    return ["gdb", "-nx", "-batch", "-d", DATA, *([elf] if elf else []), *(word for line in lines for word in ("-ex", line))]


def probe(number):
    """A command that prints where GDB stands."""
    return f'printf "\\n@{number} thread %d pc %lx\\n", $_thread, $pc'


def looks(harts):
    """Commands that print the registers of all harts and some memory, and the script."""
    rows = []
    for thread in range(1, harts + 1):
        rows.append(f"thread {thread}")
        rows.append('printf "@hart ' + "%lx " * len(NAMES) + '\\n", ' + ", ".join("$" + name for name in NAMES))
    return rows + [f"x/{WORDS}xg {FIRST:#x}", 'echo @script\\n', "monitor script", "echo @end\\n", "detach"]


def shown_by_bench(bench, script):
    """What sbibench shows at the end of a script as the looks print it: registers of each hart, and memory; none where the board is off."""
    harts = int(script.split()[1])
    rows = [f"reg {h} {n}" if n < 32 else f"pc {h}" for h in range(harts) for n in range(33)]
    rows += [f"mem {FIRST + 64 * k} 64" for k in range(WORDS // 8)]
    done = subprocess.run([bench], input=(script + "\n".join(rows) + "\n").encode(), stdout=subprocess.PIPE)
    report = done.stdout.decode().splitlines()[-len(rows):]
    if done.returncode or report[0] == "off":
        return [], []
    values = [int(row.split()[-1], 16) for row in report[:33 * harts]]
    memory = bytes.fromhex("".join(row.split()[1] for row in report[33 * harts:]))
    return ([values[33 * h:33 * h + 33] for h in range(harts)],
            [int.from_bytes(memory[k:k + 8], "little") for k in range(0, len(memory), 8)])


def looked_at(said):
    """What the looks printed: registers of each hart, memory, and the script."""
    harts = [[int(word, 16) for word in row.split()] for row in re.findall(r"^@hart ([0-9a-f ]+)$", said, re.M)]
    memory = [int(word, 16) for row in re.findall(r"^0x[0-9a-f]+[^:\n]*:\t(0x.*)$", said, re.M) for word in row.split()]
    script = re.search(r"^@script\n(.*?)^@end$", said, re.M | re.S)
    return harts, memory, script[1] if script else ""


def wrong_looks(bench, said, script=None):
    """What is wrong with the looks at a session's end, where sbibench runs its script, or that of the reader."""
    found = re.sub(r"^\+.*\n", "", said, flags=re.M)
    harts, memory, own = looked_at(found)
    if not own or script not in (None, own):
        return [f"the script of GDB's session: {own!r}, and not {script!r}"]
    if (harts, memory[-WORDS:]) != shown_by_bench(bench, own) and shown_by_bench(bench, own)[0]:
        return [f"sbibench shows something else than GDB at the end of this script:\n{own}"]
    return []


def faults_in(said):
    """Words of GDB's about packets that it did not take."""
    return [f"a fault: {line}" for line in said.splitlines() if any(word in line for word in FAULTS)]


def session(name, programs, elf, words, rows, settings=()):
    """Runs the rows by GDB and by the reader: how many things differ."""
    debugger, bench = programs
    reader = Reader([debugger, *words])
    states = [reader.state()]
    for _, packets, _ in rows:
        for word in filter(None, re.split(r" (?=[A-Zvbzmsu])", packets)):
            reader.say(word)
        states.append(reader.state())
    script = reader.talk.monitor("script")
    reader.talk.leave()
    commands = [probe(0)]
    for number, (command, _, _) in enumerate(rows):
        commands += [command, probe(number + 1)]
    commands += looks(int(script.split()[1]))
    done = subprocess.run(words_of_gdb(elf, [debugger, *words], commands, settings), stdin=subprocess.DEVNULL, stdout=subprocess.PIPE,
                          stderr=subprocess.STDOUT)
    said = done.stdout.decode()
    wrong = faults_in(said)
    parts = re.split(r"^@(\d+) thread (\d+) pc ([0-9a-f]+)\n", said, flags=re.M)
    found = list(zip(parts[1::4], parts[2::4], parts[3::4], parts[:-1:4]))
    if len(found) != len(states):
        wrong.append(f"{len(found)} of {len(states)} commands: {said[-300:]}")
    for (number, thread, pc, text), state in zip(found, states):
        command, _, wanted = ("target remote", "", "") if number == "0" else rows[int(number) - 1]
        if (thread, int(pc, 16)) != state:
            wrong.append(f"row {number}, {command}: thread {thread} at {pc}, and not {state[0]} at {state[1]:x}")
        if not re.search(wanted, text, re.M):
            wrong.append(f"row {number}, {command}: {text.strip()!r} has no {wanted!r}")
    wrong += wrong_looks(bench, parts[-1], script)
    if "[Inferior 1 (Remote target) detached]" not in parts[-1] or done.returncode:
        wrong.append(f"status {done.returncode}, or not detached")
    for text in wrong:
        print(f"GDB's session {name}: {text}")
    return len(wrong)


def program_of(words, lines=""):
    """A folder with a program of one hart and a script that ends with these lines; and the words that name both."""
    folder = tempfile.mkdtemp()
    with open(f"{folder}/program.bin", "wb") as file:
        file.write(b"".join(word.to_bytes(4, "little") for word in words))
    with open(f"{folder}/script.sbi", "w", encoding="utf-8") as file:
        file.write("board 1 1 1\nformat\non fresh\n" + lines)
    return folder, [f"{folder}/script.sbi", "--p0", f"{folder}/program.bin"]


def traps(programs):
    folder, words = program_of(TRAPPING)
    wrong = session("over traps", programs, "", words, TRAPS)
    shutil.rmtree(folder)
    return wrong


def slow(programs, counting):
    """A script that runs for more than two seconds, with acknowledgements and without."""
    lines, took = 10, 0
    while took < 2.5:
        lines = lines * 2 if took < 1 else int(lines * 3 / took) + 1
        folder, words = program_of(counting, "turn 0 1000000\n" * lines)
        began = time.monotonic()
        subprocess.run([programs[0], *words], stdin=subprocess.DEVNULL, stdout=subprocess.DEVNULL, check=True)
        took = time.monotonic() - began
        if took < 2.5:
            shutil.rmtree(folder)
    wrong = sum(session(f"slow, noack-packet {state}", programs, "", words, SLOW, [f"set remote noack-packet {state}"])
                for state in ("off", "on"))
    shutil.rmtree(folder)
    return wrong


def processor(program, folder):
    """The seconds of processor that the debugger took which was started over a folder's files; none while there is none."""
    for process in filter(str.isdigit, os.listdir("/proc")):
        try:
            with open(f"/proc/{process}/cmdline", encoding="utf-8", errors="replace") as file:
                words = file.read().split("\0")
            if words[0] == program and folder in words[1]:
                with open(f"/proc/{process}/stat", encoding="utf-8") as file:
                    return sum(int(word) for word in file.read().rsplit(")", 1)[1].split()[11:13]) / os.sysconf("SC_CLK_TCK")
        except OSError:
            continue
    return 0


def interrupt(gdb, program, folder, seconds):
    """Presses Ctrl-C when the debugger has taken so many seconds of processor more."""
    began = processor(program, folder)
    while processor(program, folder) < began + seconds and gdb.poll() is None:
        time.sleep(0.01)
    gdb.send_signal(signal.SIGINT)


def interrupts(programs, counting, state):
    """Ctrl-C while harts go on, and on the way back, which leaves the session as it was."""
    folder, words = program_of(counting)
    target = [programs[0], *words, "--most", "1000000000"]
    commands = ["echo @on\\n", "continue", "echo @script\\n", "monitor script", "echo @end\\n", "echo @back\\n", "reverse-continue",
                "stepi", "reverse-stepi", *looks(1)]
    gdb = subprocess.Popen(words_of_gdb("", target, commands, [f"set remote noack-packet {state}"]), stdin=subprocess.DEVNULL,
                           stdout=subprocess.PIPE, stderr=subprocess.STDOUT, text=True)
    said = ""
    for line in gdb.stdout:
        said += line
        if line in ("@on\n", "@back\n"):
            interrupt(gdb, programs[0], folder, 1 if line == "@on\n" else 0.03)
    status = gdb.wait()
    shutil.rmtree(folder)
    before = re.search(r"^@script\n(.*?)^@end$(.*)", said, re.M | re.S)
    wrong = faults_in(said) + (wrong_looks(programs[1], before[2], before[1]) if before else ["no script"])
    if said.count("received signal SIGINT") != 2 or status:
        wrong.append(f"status {status}, and not two stops by SIGINT in {said}")
    for text in wrong:
        print(f"GDB's session of Ctrl-C, noack-packet {state}: {text}")
    return len(wrong)


def begins(programs):
    """Sessions that begin where a bench found them."""
    folder, _ = program_of([])
    with open(f"{folder}/crew.sbi", "w", encoding="utf-8") as file:
        file.write("board 4 1 1\nformat\non fresh\n" + "".join(f"turn {k % 4} 40\n" for k in range(200)))
    turns, crew = f"{DATA}/turns.sbi", f"{folder}/crew.sbi"
    wanted = [(turns, "--schedule 4"), (turns, "--schedule 7 --seed 2"), (crew, "--sweep --row 40"), (crew, "--sweep --row 50"),
              (crew, "--faults --row 10")]
    wrong = 0
    for script, options in wanted:
        words = [script, "--p0", f"{DATA}/crew.bin", "--quantum", "20", *options.split()]
        wrong += session(options, programs, "", words, BEGINS)
    shutil.rmtree(folder)
    return wrong


# what stands in a transcript of GDB for RISC-V and not in this one: places in code, since a stop of a watchpoint is shown a turn earlier,
# and what is found out by a caller's frame
OTHERS = r"^0x|^\d+\t|^#|^Backtrace|at \./crew\.c:\d+$|^\$\d+ = \(void|^\[Switching|target remote|received signal SIGTRAP|^\s*$"


def compared(said):
    """The lines of a transcript that must be the same by both GDBs."""
    said = re.sub(r'^(. \d +Thread \d "hart \d" \([A-Z_]+\)).*', r"\1", said, flags=re.M)
    said = re.sub(r"(hit (?:Temporary b|B)reakpoint \d), .*", r"\1", said).replace('"rsp"', '"sp"')
    return [re.sub(r"\s+", " ", line) for line in said.splitlines() if not re.search(OTHERS, line)]


def transcript(programs, name, elf):
    """A session that GDB for RISC-V was asked, line by line."""
    folder = tempfile.mkdtemp()
    for file in os.listdir(DATA):
        shutil.copy(os.path.join(DATA, file), folder)
    shutil.copy(elf, f"{folder}/crew.elf")
    os.symlink(programs[0], f"{folder}/debugger")
    with open(f"{folder}/sbigdb", "w", encoding="utf-8") as file:
        file.write(f'#!/bin/sh\nexec {shlex.quote(ADAPTER)} ./debugger "$@"\n')
    os.chmod(f"{folder}/sbigdb", 0o755)
    done = subprocess.run(["gdb", "-nx", "-batch", "-ex", "set remotetimeout 600", "-x", f"{name}.gdb", "crew.elf"], cwd=folder,
                          stdin=subprocess.DEVNULL, stdout=subprocess.PIPE, stderr=subprocess.STDOUT)
    shutil.rmtree(folder)
    found = compared(done.stdout.decode())
    with open(f"{DATA}/{name}.out", encoding="utf-8") as file:
        wanted = compared(file.read())
    for number, (one, other) in enumerate(zip(found + [""], wanted + [""])):
        if one != other:
            print(f"line {number + 1} of {len(wanted)} of GDB's {name} by the adapter: {one!r}, and not {other!r}")
            return 1
    return 0


def can_read(architecture):
    """Whether there is a GDB, of the name gdb, that knows harts of an architecture."""
    if not shutil.which("gdb"):
        return False
    done = subprocess.run(["gdb", "-nx", "-batch", "-ex", f"set architecture {architecture}"], stdin=subprocess.DEVNULL,
                          stdout=subprocess.PIPE, stderr=subprocess.STDOUT)
    return b"ndefined" not in done.stdout


def tried(programs, counting):
    """Runs all sessions: how many there are, and how many things differ."""
    folder = tempfile.mkdtemp()
    elf = f"{folder}/crew.elf"
    subprocess.run([ADAPTER, "--elf", f"{DATA}/crew.elf", elf], check=True)
    wrong = sum(transcript(programs, name, elf) for name in ("session", "harts", "reads"))
    for name, rows in (("of conditions", CONDITIONS), ("of watchpoints", WATCHES), ("of monitor", WORDS_OF_MONITOR),
                       ("behind looks at threads", LOOKS)):
        wrong += session(name, programs, elf, CREW, rows)
    wrong += traps(programs) + begins(programs) + slow(programs, counting)
    wrong += sum(interrupts(programs, counting, state) for state in ("off", "on"))
    shutil.rmtree(folder)
    return 18, wrong
