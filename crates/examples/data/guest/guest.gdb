# To be sourced once in a session of GDB over sbigdb (docs/DEBUGGING.md): gdb-multiarch own.elf -x guest/guest.gdb ..
# A script may run for minutes, and GDB would ask again after two seconds.
set remotetimeout 600
# A line of `monitor` may move the board, and GDB keeps registers that it has read.
define hookpost-monitor
  maintenance flush register-cache
end
# GDB names no thread when it goes back, and sbigdb takes the one that GDB stopped at or asked about last. So GDB asks about the thread
# that is selected, without a word: after `thread apply` that is another.
define hook-reverse-stepi
  eval "thread apply %d -q echo", $_thread
end
define hook-reverse-step
  eval "thread apply %d -q echo", $_thread
end
define hook-reverse-next
  eval "thread apply %d -q echo", $_thread
end
define hook-reverse-nexti
  eval "thread apply %d -q echo", $_thread
end
define hook-reverse-finish
  eval "thread apply %d -q echo", $_thread
end
define hook-reverse-continue
  eval "thread apply %d -q echo", $_thread
end
# GDB's checkpoints are copies of a process of its own machine.
define hook-checkpoint
  echo sbigdb has no checkpoints: monitor when says a number, and monitor goto goes there\n
end
# Nothing is left of a session after detach.
define hook-detach
  echo what was done is lost, unless monitor script has printed it: a new session begins at the end of its script\n
end

python
class GuestText(gdb.Command):
    """What the guest has said so far by say (guest.h), oldest first: guest-text"""

    def __init__(self):
        super().__init__("guest-text", gdb.COMMAND_DATA)

    def invoke(self, words, is_terminal):
        said = gdb.parse_and_eval("said")
        harts = range(said.type.range()[1] + 1)
        lines = [said[hart][n] for hart in harts for n in range(said[hart].type.range()[1] + 1)]
        for line in sorted((it for it in lines if int(it["mark"])), key=lambda it: (int(it["number"]), int(it["hart"]))):
            text = line["text"].string().rstrip("\0")
            print(f"hart {int(line['hart'])}: {text} {int(line['value'])}")


GuestText()
end
