# gdb-multiarch -batch -x harts.gdb crew.elf, in this folder; ./sbigdb is the program. The harts are looked at apart.
set pagination off
set confirm off
directory .
set width 0
define hookpost-monitor
  maintenance flush register-cache
end
set trace-commands on
target remote | ./sbigdb crew.sbi --p0 crew.bin --quantum 20
show osabi
# one hart hits a breakpoint, and another is stepped back
break add if hart == 2
continue
thread 1
print $pc
reverse-stepi
print $pc
stepi
print $pc
delete
reverse-continue
# of several watchpoints the one that changed is told, forward and back
watch cells[1].sum
watch cells[2].sum
watch cells[3].sum
continue
continue 7
continue
continue 7
continue
reverse-continue
reverse-continue
delete
# a step over a call, and a step of a hart that has nothing to do
tbreak gathered
continue
info threads
thread 2
stepi
next
info threads
thread 1
monitor turn 0 99999999
# where the session stands, and back to a turn
monitor when
monitor goto 100
print $pc
monitor when
monitor goto 101
monitor goto 1x
detach
