tick 0
  request  starts
  request  enters scope budget (deadline 30)
  request  enters scope first (deadline 10)
  request  sleeps until 25
tick 10
  request  is cancelled while sleeping since 0 by scope first (deadline)
  request  leaves scope first: cancellation caught, raises TooSlow(first@10)
  request  handles TooSlow(first@10)
  request  sleeps until 12
tick 12
  request  enters scope second (deadline 22)
  request  sleeps until 16
tick 16
  request  finds 2 lines
  request  leaves scope second: completed
  request  leaves scope budget: completed
  request  ends: done
