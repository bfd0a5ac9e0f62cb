tick 0
  scan     starts
  scan     enters scope limit (deadline 10)
  scan     enters nursery shards
  scan     waits for nursery shards
  shard.0  starts in nursery shards
  shard.0  sleeps until 1
  shard.1  starts in nursery shards
  shard.1  sleeps until 2
  shard.2  starts in nursery shards
  shard.2  sleeps until 1
tick 1
  shard.0  finds 1 line
  shard.0  ends: done
  shard.2  finds no line
  shard.2  ends: done
tick 2
  shard.1  finds 1 line
  shard.1  ends: done
  scan     leaves nursery shards: completed
  scan     leaves scope limit: completed
  scan     finds 1 line
  scan     ends: done
