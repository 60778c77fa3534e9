#!/bin/sh
# The stream between the doors of two machines over a broker (docs/LIVE.md). CDS_BROKER has the words that reach it.
#   mqtt.sh OWN OTHER HOUSE    asks the door of the machine OTHER about a house: `via` of a cell file
#   mqtt.sh OWN OTHER          answers what the door of OTHER asks: after `door-peer SOCKET`
broker=${CDS_BROKER:--h broker --cafile /etc/cds/authority.pem --cert /etc/cds/host.crt --key /etc/cds/host.key}
exec 3<&0
if [ "$#" = 3 ]; then
    # (what is said is kept for this house from now on)
    set -- "$1" "$2" ask "$broker -q 2 -c -i $1.$2.$3 -t cds/$1/$2/say"
    mosquitto_sub $4 -E
else
    set -- "$1" "$2" say "$broker -q 2 -t cds/$1/$2/ask"
fi
mosquitto_pub $broker -q 2 -l -t "cds/$2/$1/$3" <&3 >/dev/null &
exec mosquitto_sub $4 3<&-
