tick 0
  readiness  starts
  readiness  enters event up
  readiness  enters nursery services
  readiness  waits for nursery services
  server     starts in nursery services
  server     sleeps until 3
  client.0   starts in nursery services
  client.0   enters scope patience.0 (deadline 5)
  client.0   waits for event up
  client.1   starts in nursery services
  client.1   enters scope patience.1 (deadline 5)
  client.1   waits for event up
tick 3
  server     sets event up
  server     sleeps until 5
  client.0   goes on: event up was set
  client.0   leaves scope patience.0: completed
  client.0   sleeps until 4
  client.1   goes on: event up was set
  client.1   leaves scope patience.1: completed
  client.1   sleeps until 4
tick 4
  client.0   finds 1 line
  client.0   ends: done
  client.1   finds 1 line
  client.1   ends: done
tick 5
  server     ends: done
  readiness  leaves nursery services: completed
  readiness  ends: done
