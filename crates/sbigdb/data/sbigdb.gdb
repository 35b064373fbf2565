# To be sourced once in a session of GDB over sbigdb. A script may run for minutes before its end is there to be shown, and GDB would ask
# again after two seconds.
set remotetimeout 600
# A line of `monitor` may move the board, and GDB keeps registers that it has read.
define hookpost-monitor
  maintenance flush register-cache
end
# GDB names no thread when it goes back, and sbigdb takes the one that GDB stopped at or asked about last. So GDB asks about the thread
# that is selected, without a word: after `thread apply` that is another.
define hook-reverse-stepi
  eval "thread apply %d -q echo", $_thread
end
define hook-reverse-step
  eval "thread apply %d -q echo", $_thread
end
define hook-reverse-next
  eval "thread apply %d -q echo", $_thread
end
define hook-reverse-nexti
  eval "thread apply %d -q echo", $_thread
end
define hook-reverse-finish
  eval "thread apply %d -q echo", $_thread
end
define hook-reverse-continue
  eval "thread apply %d -q echo", $_thread
end
# GDB's checkpoints are copies of a process of its own machine.
define hook-checkpoint
  echo sbigdb has no checkpoints: monitor when says a number, and monitor goto goes there\n
end
# Nothing is left of a session after detach.
define hook-detach
  echo what was done is lost, unless monitor script has printed it: a new session begins at the end of its script\n
end
