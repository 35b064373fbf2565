# gdb-multiarch -batch -x reads.gdb crew.elf, in this folder; ./sbigdb is the program.
set pagination off
set confirm off
directory .
set width 0
define hookpost-monitor
  maintenance flush register-cache
end
set trace-commands on
target remote | ./sbigdb crew.sbi --p0 crew.bin --quantum 20
# reads of a cell, forward and back
rwatch cells[1].sum
continue
print $pc
bt
continue
print cells[1].sum
reverse-continue
print cells[1].sum
delete
# reads and writes of another
awatch cells[2].sum
continue
continue
continue
reverse-continue
print $pc
delete
# a read of one cell, and a write of the other, in one session
rwatch cells[3].sum
watch cells[2].sum
continue
continue
delete
detach
# where a schedule parts from the script's own run, and what comes then in it
target remote | ./sbigdb turns.sbi --p0 crew.bin --schedule 4 --quantum 20
monitor when
bt 1
monitor turn 2 60
info threads
awatch cells[2].sum
reverse-continue
delete
monitor turn 0 29
rwatch cells[1].sum
continue
detach
