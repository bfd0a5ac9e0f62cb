tick 0
  first    starts
  first    enters event won
  first    enters nursery asked
  first    waits for event won
  primary  starts in nursery asked
  primary  sleeps until 5
  backup   starts in nursery asked
  backup   sleeps until 2
tick 2
  backup   sleeps until 6
tick 5
  primary  finds 4 lines
  primary  sets event won
  primary  ends: done
  first    goes on: event won was set
  first    cancels nursery asked from 5
  first    waits for nursery asked
  backup   is cancelled while sleeping since 2 by nursery asked (cancelled by first at 5)
  backup   ends: cancelled
  first    leaves nursery asked: cancellation caught
  first    ends: done
