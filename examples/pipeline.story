tick 0
  pipeline  starts
  pipeline  enters channel raw (1 place)
  pipeline  enters channel clean (1 place)
  pipeline  enters nursery stages
  pipeline  waits for nursery stages
  read      starts in nursery stages
  read      enters scope serving (deadline 3)
  read      sleeps until 1
  wash      starts in nursery stages
  wash      waits to receive from raw (empty)
  write     starts in nursery stages
  write     waits to receive from clean (empty)
tick 1
  read      sends to raw
  read      sleeps until 2
  wash      receives from raw (sent by read)
  wash      sleeps until 3
tick 2
  read      sends to raw
  read      sleeps until 3
tick 3
  read      is cancelled while sleeping since 2 by scope serving (deadline)
  read      leaves scope serving: cancellation caught
  read      closes raw
  read      ends: done
  wash      sends to clean
  write     receives from clean (sent by wash)
  write     sleeps until 4
  wash      receives from raw (sent by read)
  wash      sleeps until 5
tick 4
  write     finds 1 line
  write     waits to receive from clean (empty)
tick 5
  wash      sends to clean
  write     receives from clean (sent by wash)
  write     sleeps until 6
  wash      finds raw closed and empty (closed by read)
  wash      handles EndOfChannel(wash@5)
  wash      closes clean
  wash      ends: done
tick 6
  write     finds 1 line
  write     finds clean closed and empty (closed by wash)
  write     handles EndOfChannel(write@6)
  write     ends: done
  pipeline  leaves nursery stages: completed
  pipeline  ends: done
