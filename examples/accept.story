tick 0
  accept     starts
  accept     enters scope day (deadline 9)
  accept     enters nursery serve
  accept     sleeps until 2
  handler.0  starts in nursery serve
  handler.0  enters scope patience.0 (deadline 3)
  handler.0  sleeps until 4
tick 2
  accept     sleeps until 4
  handler.1  starts in nursery serve
  handler.1  enters scope patience.1 (deadline 5)
  handler.1  sleeps until 6
tick 3
  handler.0  is cancelled while sleeping since 0 by scope patience.0 (deadline)
  handler.0  leaves scope patience.0: cancellation caught
  handler.0  ends: done
tick 4
  accept     sleeps until 6
  handler.2  starts in nursery serve
  handler.2  enters scope patience.2 (deadline 7)
  handler.2  sleeps until 8
tick 5
  handler.1  is cancelled while sleeping since 2 by scope patience.1 (deadline)
  handler.1  leaves scope patience.1: cancellation caught
  handler.1  ends: done
tick 6
  accept     sleeps until 8
  handler.3  starts in nursery serve
  handler.3  enters scope patience.3 (deadline 9)
  handler.3  sleeps until 10
tick 7
  handler.2  is cancelled while sleeping since 4 by scope patience.2 (deadline)
  handler.2  leaves scope patience.2: cancellation caught
  handler.2  ends: done
tick 8
  accept     sleeps until 10
  handler.4  starts in nursery serve
  handler.4  enters scope patience.4 (deadline 11)
  handler.4  sleeps until 12
tick 9
  handler.3  is cancelled while sleeping since 6 by scope patience.3 (deadline)
  handler.3  leaves scope patience.3: Cancelled propagates
  handler.3  ends: cancelled
  handler.4  is cancelled while sleeping since 8 by scope day (deadline)
  handler.4  leaves scope patience.4: Cancelled propagates
  handler.4  ends: cancelled
  accept     is cancelled while sleeping since 8 by scope day (deadline)
  accept     waits for nursery serve after Cancelled
  accept     leaves nursery serve: serve[Cancelled, Cancelled, Cancelled] propagates
  accept     leaves scope day: cancellation caught
  accept     ends: done
