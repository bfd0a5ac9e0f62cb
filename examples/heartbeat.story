tick 0
  heartbeat  starts
  heartbeat  enters nursery link
  heartbeat  waits for nursery link
  beat       starts in nursery link
  beat       enters scope due.0
  beat       sleeps until 3
  work       starts in nursery link
  work       enters scope session (deadline 7)
  work       sleeps forever
tick 3
  beat       finds 1 line
  beat       leaves scope due.0: completed
  beat       enters scope due.1
  beat       sleeps until 6
tick 6
  beat       finds 1 line
  beat       leaves scope due.1: completed
  beat       enters scope due.2
  beat       sleeps until 9
tick 7
  work       is cancelled while sleeping since 0 by scope session (deadline)
  work       runs cleanup after Cancelled
  work       enters scope flush (deadline 12, shielded)
  work       sleeps until 10
tick 9
  beat       finds 1 line
  beat       leaves scope due.2: completed
  beat       enters scope due.3
  beat       sleeps until 12
tick 10
  work       finds 2 lines
  work       leaves scope flush: completed
  work       leaves scope session: cancellation caught
  work       cancels nursery link from 10
  work       ends: done
  beat       is cancelled while sleeping since 9 by nursery link (cancelled by work at 10)
  beat       leaves scope due.3: Cancelled propagates
  beat       ends: cancelled
  heartbeat  leaves nursery link: cancellation caught
  heartbeat  ends: done
