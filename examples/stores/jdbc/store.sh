#!/bin/sh
# Runs Store.class, which is built first, with Debian's H2 and Derby.
here=${0%/*}
jars=/usr/share/java
exec java -Xshare:auto -XX:TieredStopAtLevel=1 -XX:-UsePerfData \
    -Dderby.stream.error.file=/dev/null -Dderby.system.durability=full \
    -cp "$jars/h2.jar:$jars/derby.jar:$jars/derbyshared.jar:$jars/derbytools.jar:$here" Store "$@"
