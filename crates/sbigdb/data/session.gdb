# gdb-multiarch -batch -x session.gdb crew.elf, in this folder; ./sbigdb is the program.
set pagination off
set confirm off
directory .
set width 0
python
class Refused(gdb.Command):
    "refused COMMAND: runs a command that is to fail, and prints its error."
    def __init__(self):
        super().__init__("refused", gdb.COMMAND_USER)
    def invoke(self, words, tty):
        try:
            gdb.execute(words)
        except gdb.error as e:
            print("error:", e)
Refused()
end
define hookpost-monitor
  maintenance flush register-cache
end
set trace-commands on
target remote | ./sbigdb crew.sbi --p0 crew.bin --quantum 20
info threads
info registers pc sp a0 sstatus satp
# a breakpoint in C, on one hart
break add if hart == 2
continue
info threads
bt
print hart
print cells
next
next
print cells[2].sum
# back over a line, and over an instruction
reverse-next
print cells[2].sum
stepi
reverse-stepi
print $pc
delete
tbreak gathered
continue
info threads
# a watchpoint, forward and back
watch total
continue
print total
reverse-continue
print total
print $pc
delete
# to the disk and back
break sleep_now
continue
delete
continue
monitor inspect
info registers pc sp
refused x/4xw 0x80000000
continue
monitor on resume
info threads
bt
monitor slot 1
break goes_on
continue
next
print resumes
# power fails; a second boot; and back across both lives
monitor cut 00
monitor on fresh
info registers pc
monitor harts
delete
break add
reverse-continue
bt
print cells
reverse-continue
print cells
delete
reverse-continue
# nothing that GDB asks changes the board
refused set var total = 5
refused print $sp = 4
refused x/4xw 0x90000000
monitor nonsense
monitor turn 1 5
monitor cutat 3 00
monitor slot 2
monitor script
detach
