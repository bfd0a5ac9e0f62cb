tick 0
  shards   starts
  shards   enters nursery parts
  shards   waits for nursery parts
  shard.0  starts in nursery parts
  shard.0  enters scope limit.0 (deadline 4)
  shard.0  sleeps until 2
  shard.1  starts in nursery parts
  shard.1  enters scope limit.1 (deadline 4)
  shard.1  sleeps until 5
  shard.2  starts in nursery parts
  shard.2  enters scope limit.2 (deadline 4)
  shard.2  sleeps until 2
tick 2
  shard.0  finds 1 line
  shard.0  leaves scope limit.0: completed
  shard.0  ends: done
  shard.2  finds 1 line
  shard.2  leaves scope limit.2: completed
  shard.2  ends: done
tick 4
  shard.1  is cancelled while sleeping since 0 by scope limit.1 (deadline)
  shard.1  leaves scope limit.1: cancellation caught, raises TooSlow(limit.1@4)
  shard.1  handles TooSlow(limit.1@4)
  shard.1  finds 1 line
  shard.1  ends: done
  shards   leaves nursery parts: completed
  shards   ends: done
