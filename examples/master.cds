# House 1 is the master, and house 2 has what it has.
house 1 00000000000a
house 2 00000000000b
root 1 2
deliver 1
create 1 1 both
deliver 2
# House 2 becomes the master alone. House 1 does not hear of it, and goes on accepting updates, which house 2 does not take any more.
epoch 1 2
create 1 1 alone
deliver 4
read 1 high /.:/both A
skulk 2 1
# House 1 comes back as a read-only member, in a new term. Once it hears of it, what it accepted alone is gone, and it can be the
# master again.
epoch 1 2 1
epoch 1 1 2
deliver 5
read 1 low /.:/alone A
read 1 low /.:/both A
epoch 1 1 2
create 1 1 new
