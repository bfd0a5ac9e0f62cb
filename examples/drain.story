tick 0
  drain       starts
  drain       enters event stop
  drain       enters nursery workers
  drain       waits for nursery workers
  worker.0    starts in nursery workers
  worker.0    enters nursery work.0
  worker.0    waits for event stop
  worker.1    starts in nursery workers
  worker.1    enters nursery work.1
  worker.1    waits for event stop
  signal      starts in nursery workers
  signal      sleeps until 7
  requests.0  starts in nursery work.0
  requests.0  sleeps until 3
  requests.1  starts in nursery work.1
  requests.1  sleeps until 3
tick 3
  requests.0  finds 1 line
  requests.0  sleeps until 6
  requests.1  finds 1 line
  requests.1  sleeps until 6
tick 6
  requests.0  finds 1 line
  requests.0  sleeps until 9
  requests.1  finds 1 line
  requests.1  sleeps until 9
tick 7
  signal      sets event stop
  signal      ends: done
  worker.0    goes on: event stop was set
  worker.0    cancels nursery work.0 from 7
  worker.0    waits for nursery work.0
  worker.1    goes on: event stop was set
  worker.1    cancels nursery work.1 from 7
  worker.1    waits for nursery work.1
  requests.0  is cancelled while sleeping since 6 by nursery work.0 (cancelled by worker.0 at 7)
  requests.0  ends: cancelled
  requests.1  is cancelled while sleeping since 6 by nursery work.1 (cancelled by worker.1 at 7)
  requests.1  ends: cancelled
  worker.0    leaves nursery work.0: cancellation caught
  worker.0    enters scope flush.0 (deadline 9, shielded)
  worker.0    sleeps until 8
  worker.1    leaves nursery work.1: cancellation caught
  worker.1    enters scope flush.1 (deadline 9, shielded)
  worker.1    sleeps until 8
tick 8
  worker.0    finds 1 line
  worker.0    leaves scope flush.0: completed
  worker.0    ends: done
  worker.1    finds 1 line
  worker.1    leaves scope flush.1: completed
  worker.1    ends: done
  drain       leaves nursery workers: completed
  drain       ends: done
