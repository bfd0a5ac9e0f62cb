tick 0
  queue     starts
  queue     enters channel work (1 place)
  queue     enters nursery crew
  queue     enters scope reading (deadline 8)
  queue     sleeps until 1
  worker.0  starts in nursery crew
  worker.0  waits to receive from work (empty)
  worker.1  starts in nursery crew
  worker.1  waits to receive from work (empty, second in the queue)
tick 1
  worker.0  receives from work (sent by queue)
  worker.0  sleeps until 4
  queue     sends to work
  queue     sleeps until 2
tick 2
  worker.1  receives from work (sent by queue)
  worker.1  sleeps until 5
  queue     sends to work
  queue     sleeps until 3
tick 3
  queue     sends to work
  queue     sleeps until 4
tick 4
  worker.0  finds 1 line
  worker.0  receives from work (sent by queue)
  worker.0  sleeps until 7
  queue     sends to work
  queue     sleeps until 5
tick 5
  worker.1  finds 1 line
  worker.1  receives from work (sent by queue)
  worker.1  sleeps until 8
  queue     sends to work
  queue     sleeps until 6
tick 6
  queue     waits to send to work (full)
tick 7
  worker.0  finds 1 line
  worker.0  receives from work (sent by queue)
  worker.0  sleeps until 10
  queue     sends to work
  queue     leaves scope reading: completed
  queue     closes work
  queue     waits for nursery crew
tick 8
  worker.1  finds 1 line
  worker.1  receives from work (sent by queue)
  worker.1  sleeps until 11
tick 10
  worker.0  finds 1 line
  worker.0  finds work closed and empty (closed by queue)
  worker.0  handles EndOfChannel(worker.0@10)
  worker.0  ends: done
tick 11
  worker.1  finds 1 line
  worker.1  finds work closed and empty (closed by queue)
  worker.1  handles EndOfChannel(worker.1@11)
  worker.1  ends: done
  queue     leaves nursery crew: completed
  queue     ends: done
