#!/usr/bin/env bash
# Tries `zetcd serve` with real clients on a real etcd: kazoo, ZooKeeper's Java and C clients, zkCli and Apache Curator, over two proxies on
# the loopback. Proxies are killed, etcd is restarted, compacted and filled, and clients are stopped until their sessions have lapsed.
# Members of an etcd of three are killed and cut off from the others, and a backup of etcd is restored. An older program, if OLD names one,
# is upgraded to this one. Clients under kills, stops and cuts are recorded by `tools/audit`, and what it recorded is judged. Prints a line
# for each check, and ends with status 0 if all hold. Ends what it started. Takes about fifteen minutes; with words, only the parts that
# they name (basics faults ends history members restore upgrade, and recorded for what of `faults` is recorded). AUDIT_SECONDS and
# AUDIT_SEED are for the record, see clients/recorded.py.
#
#     bench/clients.sh [--install] [PART..]          ZETCD=PROGRAM: another program than the one that `./run` builds
#                                                    OLD=PROGRAM: one whose sessions own at most 40 ephemeral nodes
set -eu
here=$(cd "$(dirname "$0")/.." && pwd)
packages="etcd-server:etcd etcd-client:etcdctl python3-kazoo iproute2:ss"
# The parts in which Java's and C's clients run.
case " ${*:-basics} " in
  *" basics "* | *" faults "* | *" recorded "* | " --install ")
    packages="$packages zookeeper libzookeeper-java libzookeeper-mt-dev gcc:gcc libc6-dev default-jdk-headless:javac libcurator-client-java"
    packages="$packages libcurator-framework-java libcurator-recipes-java libguava-java libjackson2-databind-java"
    is_compiled=yes
    ;;
  *) is_compiled= ;;
esac
. "$here/bench/needs.sh"
. "$here/bench/program.sh"

work=$(mktemp -d)
. "$here/bench/group.sh"
jars=/usr/share/java/zookeeper.jar:/usr/share/java/zookeeper-jute.jar:/usr/share/java/zookeeper-recipes-lock.jar
jars=$jars:/usr/share/java/zookeeper-recipes-election.jar:/usr/share/java/slf4j-api.jar:/usr/share/java/slf4j-nop.jar
for jar in /usr/share/java/netty-*.jar /usr/share/java/{metrics-core,snappy-java,guava,jackson-*,curator-*}.jar; do
  case $jar in *-[0-9]*) ;; *) [ -e "$jar" ] && jars=$jars:$jar ;; esac
done
if [ -n "$is_compiled" ]; then
  javac -nowarn -cp "$jars" -d "$work" "$here/bench/clients/"{Clients,Curator}.java 2>/dev/null
  gcc -O1 -DTHREADED -o "$work/clients" "$here/bench/clients/clients.c" -lzookeeper_mt
fi
export CLASSPATH=$work:$jars PYTHONPATH=$here/bench/hostile PYTHONDONTWRITEBYTECODE=1
# Debian's Python has kazoo; another one before it on the path may not.
in_group /usr/bin/python3 "$here/bench/clients/run.py" "$program" "$work" "$@"
