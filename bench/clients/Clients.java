// ZooKeeper's Java client, for bench/clients.sh. Each command prints `ok` at its end, or says what was wrong and ends with status 1.
import java.nio.charset.StandardCharsets;
import java.util.ArrayList;
import java.util.Arrays;
import java.util.List;
import java.util.concurrent.CountDownLatch;
import java.util.concurrent.LinkedBlockingQueue;
import java.util.concurrent.TimeUnit;
import org.apache.zookeeper.CreateMode;
import org.apache.zookeeper.KeeperException;
import org.apache.zookeeper.Op;
import org.apache.zookeeper.OpResult;
import org.apache.zookeeper.WatchedEvent;
import org.apache.zookeeper.Watcher;
import org.apache.zookeeper.ZooDefs.Ids;
import org.apache.zookeeper.ZooKeeper;
import org.apache.zookeeper.data.Stat;
import org.apache.zookeeper.recipes.leader.LeaderElectionSupport;
import org.apache.zookeeper.recipes.lock.LockListener;
import org.apache.zookeeper.recipes.lock.WriteLock;

public class Clients {
  static class Events implements Watcher {
    final LinkedBlockingQueue<WatchedEvent> all = new LinkedBlockingQueue<>();
    final CountDownLatch connected = new CountDownLatch(1);

    public void process(WatchedEvent event) {
      if (event.getState() == Event.KeeperState.SyncConnected) connected.countDown();
      if (event.getType() != Event.EventType.None) all.add(event);
    }

    Watcher.Event.EventType next() throws Exception {
      WatchedEvent event = all.poll(5, TimeUnit.SECONDS);
      return event == null ? null : event.getType();
    }
  }

  static ZooKeeper connect(String hosts, Events events) throws Exception {
    ZooKeeper zk = new ZooKeeper(hosts, 10000, events);
    check("connect", events.connected.await(10, TimeUnit.SECONDS));
    return zk;
  }

  static void check(String what, boolean holds) {
    if (!holds) {
      System.out.println("wrong: " + what);
      System.exit(1);
    }
  }

  static byte[] bytes(String text) {
    return text.getBytes(StandardCharsets.UTF_8);
  }

  static void basics(String one, String other) throws Exception {
    Events mine = new Events(), theirs = new Events();
    ZooKeeper a = connect(one, mine), b = connect(other, theirs);
    check("create", a.create("/java", bytes("x"), Ids.OPEN_ACL_UNSAFE, CreateMode.PERSISTENT).equals("/java"));
    Stat stat = new Stat();
    check("read", new String(b.getData("/java", true, stat)).equals("x") && stat.getVersion() == 0);
    check("no children", b.getChildren("/java", true).isEmpty());
    a.setData("/java", bytes("y"), 0);
    check("changed", theirs.next() == Watcher.Event.EventType.NodeDataChanged);
    String first = a.create("/java/n-", bytes(""), Ids.OPEN_ACL_UNSAFE, CreateMode.EPHEMERAL_SEQUENTIAL);
    check("sequence", first.equals("/java/n-0000000000"));
    check("children", theirs.next() == Watcher.Event.EventType.NodeChildrenChanged);
    check("owner", b.exists(first, false).getEphemeralOwner() == a.getSessionId());
    List<OpResult> results = b.multi(Arrays.asList(
        Op.check("/java", 1), Op.setData("/java", bytes("z"), 1),
        Op.create("/java/c", bytes(""), Ids.OPEN_ACL_UNSAFE, CreateMode.PERSISTENT), Op.delete("/java/c", -1)));
    check("multi", results.size() == 4);
    try {
      a.setData("/java", bytes("w"), 0);
      check("bad version", false);
    } catch (KeeperException.BadVersionException expected) {
    }
    a.sync("/java", (rc, path, ctx) -> {}, null);
    check("list", b.exists("/java/none", true) == null);
    a.create("/java/none", bytes(""), Ids.OPEN_ACL_UNSAFE, CreateMode.PERSISTENT);
    check("created", theirs.next() == Watcher.Event.EventType.NodeCreated);
    check("acl", a.getACL("/java", stat).equals(Ids.OPEN_ACL_UNSAFE));
    a.close();
    check("gone with its session", b.exists(first, false) == null);
    b.close();
  }

  // Both hold the lock for ever so short a time, by turns, and never together.
  static void lock(String one, String other) throws Exception {
    ZooKeeper a = connect(one, new Events()), b = connect(other, new Events());
    List<String> log = new ArrayList<>();
    CountDownLatch second = new CountDownLatch(1);
    WriteLock mine = new WriteLock(a, "/java-lock", Ids.OPEN_ACL_UNSAFE);
    WriteLock theirs = new WriteLock(b, "/java-lock", Ids.OPEN_ACL_UNSAFE, new LockListener() {
      public void lockAcquired() {
        second.countDown();
      }

      public void lockReleased() {}
    });
    check("lock", mine.lock() && mine.isOwner());
    theirs.lock();
    check("one owner", !theirs.isOwner());
    mine.unlock();
    check("passed on", second.await(5, TimeUnit.SECONDS));
    check("owner", theirs.isOwner());
    theirs.unlock();
    a.close();
    b.close();
  }

  static void elect(String one, String other) throws Exception {
    ZooKeeper a = connect(one, new Events()), b = connect(other, new Events());
    a.create("/java-leader", bytes(""), Ids.OPEN_ACL_UNSAFE, CreateMode.PERSISTENT);
    LeaderElectionSupport mine = new LeaderElectionSupport(), theirs = new LeaderElectionSupport();
    for (LeaderElectionSupport each : Arrays.asList(mine, theirs)) {
      each.setZooKeeper(each == mine ? a : b);
      each.setRootNodeName("/java-leader");
      each.setHostName(each == mine ? "a" : "b");
    }
    CountDownLatch won = new CountDownLatch(1);
    theirs.addListener(event -> {
      if (event == LeaderElectionSupport.EventType.ELECTED_COMPLETE) won.countDown();
    });
    mine.start();
    theirs.start();
    check("first leads", mine.getLeaderHostName().equals("a"));
    check("second waits", won.getCount() == 1);
    mine.stop();
    check("second leads", won.await(5, TimeUnit.SECONDS));
    theirs.stop();
    a.close();
    b.close();
  }

  // Watches stay when the session goes on at another proxy, and changes made in between are told.
  static void failover(String hosts, String ignored) throws Exception {
    Events events = new Events();
    ZooKeeper a = connect(hosts, events);
    for (String path : Arrays.asList("/w", "/w/changed", "/w/deleted"))
      a.create(path, bytes("x"), Ids.OPEN_ACL_UNSAFE, CreateMode.PERSISTENT);
    a.getData("/w/changed", true, null);
    a.getData("/w/deleted", true, null);
    a.exists("/w/created", true);
    a.getChildren("/w", true);
    a.getData("/w", true, null);
    long session = a.getSessionId();
    System.out.println("ready");
    System.in.read();
    List<String> told = new ArrayList<>();
    for (int i = 0; i < 4; i++) {
      WatchedEvent event = events.all.poll(15, TimeUnit.SECONDS);
      check("told of a change", event != null);
      told.add(event.getType() + " " + event.getPath());
    }
    told.sort(null);
    check(told.toString(), told.equals(Arrays.asList("NodeChildrenChanged /w", "NodeCreated /w/created", "NodeDataChanged /w/changed",
        "NodeDeleted /w/deleted")));
    check("the session", a.getSessionId() == session);
    a.setData("/w", bytes("y"), -1);
    check("a watch that did not fire", events.next() == Watcher.Event.EventType.NodeDataChanged);
    a.close();
  }

  // A create tells the Stat of the node that it made, and a watch that was taken away is told of nothing.
  static void unwatch(String host, String ignored) throws Exception {
    ZooKeeper a = connect(host, new Events());
    Stat made = new Stat();
    a.create("/java-unwatch", bytes("x"), Ids.OPEN_ACL_UNSAFE, CreateMode.PERSISTENT, made);
    check("the stat of a create", made.equals(a.exists("/java-unwatch", false)) && made.getDataLength() == 1);
    String first = a.create("/java-unwatch/n-", bytes(""), Ids.OPEN_ACL_UNSAFE, CreateMode.EPHEMERAL_SEQUENTIAL, made);
    check("an owner", first.equals("/java-unwatch/n-0000000000") && made.getEphemeralOwner() == a.getSessionId());
    Events one = new Events(), other = new Events(), children = new Events();
    a.getData("/java-unwatch", one, null);
    a.getData("/java-unwatch", other, null);
    a.getChildren("/java-unwatch", children);
    a.removeWatches("/java-unwatch", one, Watcher.WatcherType.Data, false);
    check("one of two is gone", one.next() == Watcher.Event.EventType.DataWatchRemoved);
    a.setData("/java-unwatch", bytes("y"), -1);
    check("the other is told", other.next() == Watcher.Event.EventType.NodeDataChanged);
    a.getData("/java-unwatch", other, null);
    a.removeAllWatches("/java-unwatch", Watcher.WatcherType.Data, false);
    check("all of data are gone", other.next() == Watcher.Event.EventType.DataWatchRemoved);
    a.setData("/java-unwatch", bytes("z"), -1);
    a.delete(first, -1);
    check("the children's is left", children.next() == Watcher.Event.EventType.NodeChildrenChanged);
    a.exists("/java-unwatch", false);
    check("nothing more is told", one.all.isEmpty() && other.all.isEmpty() && children.all.isEmpty());
    try {
      a.removeAllWatches("/java-unwatch", Watcher.WatcherType.Any, false);
      check("no watch is left", false);
    } catch (KeeperException.NoWatcherException expected) {
    }
    a.close();
  }

  // Makes, reads, watches, changes and removes nodes for so many seconds, whatever becomes of its connections and its session.
  static void roam(String hosts, String seconds) throws Exception {
    long end = System.currentTimeMillis() + Math.round(1000 * Double.parseDouble(seconds));
    java.util.Random dice = new java.util.Random(1);
    int done = 0;
    ZooKeeper zk = null;
    while (System.currentTimeMillis() < end) {
      try {
        if (zk == null || !zk.getState().isAlive()) zk = new ZooKeeper(hosts, 4000 + dice.nextInt(8000), new Events());
        String path = "/java" + dice.nextInt(3);
        int kind = dice.nextInt(8);
        if (kind == 0) zk.create(path, bytes("x" + done), Ids.OPEN_ACL_UNSAFE, CreateMode.PERSISTENT);
        if (kind == 1) zk.create(path + "/n-", bytes(""), Ids.OPEN_ACL_UNSAFE, CreateMode.EPHEMERAL_SEQUENTIAL);
        if (kind == 2) zk.setData(path, bytes("y" + done), -1);
        if (kind == 3) zk.getData(path, dice.nextBoolean(), new Stat());
        if (kind == 4) zk.exists(path, dice.nextBoolean());
        if (kind == 5) {
          List<String> names = zk.getChildren(path, dice.nextBoolean());
          if (names.size() > 5) zk.delete(path + "/" + names.get(dice.nextInt(names.size())), -1);
        }
        if (kind == 6) zk.multi(Arrays.asList(Op.check(path, -1), Op.setData(path, bytes("z" + done), -1),
            Op.create(path + "/m-", bytes(""), Ids.OPEN_ACL_UNSAFE, CreateMode.EPHEMERAL_SEQUENTIAL)));
        if (kind == 7) Thread.sleep(dice.nextInt(30));
        done++;
      } catch (KeeperException wrong) {
        if (wrong.code() == KeeperException.Code.CONNECTIONLOSS) Thread.sleep(20);
        if (wrong.code() == KeeperException.Code.SESSIONEXPIRED) zk = null;
      }
    }
    if (zk != null) zk.close();
    System.out.println(done + " requests");
  }

  public static void main(String[] words) throws Exception {
    switch (words[0]) {
      case "roam": roam(words[1], words[2]); break;
      case "unwatch": unwatch(words[1], words[2]); break;
      case "basics": basics(words[1], words[2]); break;
      case "lock": lock(words[1], words[2]); break;
      case "failover": failover(words[1], words[2]); break;
      case "elect": elect(words[1], words[2]); break;
    }
    System.out.println("ok");
    System.exit(0);
  }
}
