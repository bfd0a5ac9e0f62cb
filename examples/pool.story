tick 0
  pool      starts
  pool      enters limiter connections (2 tokens)
  pool      enters scope patience (deadline 5)
  pool      enters nursery clients
  pool      waits for nursery clients
  client.0  starts in nursery clients
  client.1  starts in nursery clients
  client.2  starts in nursery clients
  client.2  waits for a token of connections (2 of 2 in use, first in the queue)
  client.3  starts in nursery clients
  client.3  waits for a token of connections (2 of 2 in use, second in the queue)
  client.4  starts in nursery clients
  client.4  waits for a token of connections (2 of 2 in use, third in the queue)
  client.0  gets a token of connections at once
  client.0  enters scope query.0 (shielded)
  client.0  sleeps until 4
  client.1  gets a token of connections at once
  client.1  enters scope query.1 (shielded)
  client.1  sleeps until 4
tick 4
  client.0  finds 1 line
  client.0  leaves scope query.0: completed
  client.0  gives its token of connections back
  client.0  ends: done
  client.1  finds 1 line
  client.1  leaves scope query.1: completed
  client.1  gives its token of connections back
  client.1  ends: done
  client.2  gets a token of connections (given back by client.0)
  client.2  enters scope query.2 (shielded)
  client.2  sleeps until 8
  client.3  gets a token of connections (given back by client.1)
  client.3  enters scope query.3 (shielded)
  client.3  sleeps until 8
tick 5
  client.4  is cancelled while waiting for a token of connections since 0 by scope patience (deadline)
  client.4  ends: cancelled
tick 8
  client.2  finds 1 line
  client.2  leaves scope query.2: completed
  client.2  gives its token of connections back
  client.2  ends: done
  client.3  finds 1 line
  client.3  leaves scope query.3: completed
  client.3  gives its token of connections back
  client.3  ends: done
  pool      leaves nursery clients: clients[Cancelled] propagates
  pool      leaves scope patience: cancellation caught
  pool      ends: done
