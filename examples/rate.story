tick 0
  rate      starts
  rate      enters channel bucket (2 places)
  rate      enters nursery n
  rate      enters nursery clients
  rate      waits for nursery clients
  refill    starts in nursery n
  client.0  starts in nursery clients
  client.1  starts in nursery clients
  client.1  waits to receive from bucket (empty)
  client.2  starts in nursery clients
  client.2  waits to receive from bucket (empty, second in the queue)
  client.3  starts in nursery clients
  client.3  waits to receive from bucket (empty, third in the queue)
  client.4  starts in nursery clients
  client.4  waits to receive from bucket (empty, fourth in the queue)
  refill    sends to bucket
  client.0  receives from bucket (sent by refill)
  client.0  finds 1 line
  client.0  ends: done
  refill    sends to bucket
  refill    sleeps until 5
  client.1  receives from bucket (sent by refill)
  client.1  finds 1 line
  client.1  ends: done
tick 5
  refill    sends to bucket
  refill    sleeps until 10
  client.2  receives from bucket (sent by refill)
  client.2  finds 1 line
  client.2  ends: done
tick 10
  refill    sends to bucket
  refill    sleeps until 15
  client.3  receives from bucket (sent by refill)
  client.3  finds 1 line
  client.3  ends: done
tick 15
  refill    sends to bucket
  refill    sleeps until 20
  client.4  receives from bucket (sent by refill)
  client.4  finds 1 line
  client.4  ends: done
  rate      leaves nursery clients: completed
  rate      cancels nursery n from 15
  rate      waits for nursery n
  refill    is cancelled while sleeping since 15 by nursery n (cancelled by rate at 15)
  refill    ends: cancelled
  rate      leaves nursery n: cancellation caught
  rate      ends: done
