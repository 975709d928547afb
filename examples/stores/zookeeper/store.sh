#!/bin/sh
# Runs Store.class, which is built first, with Debian's zookeeper.jar and what that needs. A new log
# has `size` KiB at once, by default 64.
here=${0%/*}
classes=/usr/share/java
exec java -XX:TieredStopAtLevel=1 -XX:-UsePerfData -Dzookeeper.preAllocSize=${size:-64} \
    -Dzookeeper.admin.enableServer=false -Djava.util.logging.config.file=/dev/null \
    -cp "$classes/zookeeper.jar:$classes/zookeeper-jute.jar:$classes/*:$here" Store "$@" 2>/dev/null
