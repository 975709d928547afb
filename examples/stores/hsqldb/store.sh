#!/bin/sh
# Runs Store.class, which is built first: Debian's hsqldb.jar has HSQLDB.
here=${0%/*}
exec java -Xshare:auto -XX:TieredStopAtLevel=1 -Dhsqldb.reconfig_logging=false \
    -XX:-UsePerfData -cp "/usr/share/java/hsqldb.jar:$here" Store "$@"
