// Apache Curator, for bench/clients.sh: its framework and its recipes, two clients at two proxies. Each of its creates is a create2. It
// makes no container nodes here (`dontUseContainerParents`), since these are not served. Prints `ok` at its end, or says what was wrong
// and ends with status 1.
import java.util.concurrent.Executors;
import java.util.concurrent.Future;
import java.util.concurrent.LinkedBlockingQueue;
import java.util.concurrent.TimeUnit;
import org.apache.curator.framework.CuratorFramework;
import org.apache.curator.framework.CuratorFrameworkFactory;
import org.apache.curator.framework.recipes.atomic.DistributedAtomicLong;
import org.apache.curator.framework.recipes.barriers.DistributedDoubleBarrier;
import org.apache.curator.framework.recipes.cache.NodeCache;
import org.apache.curator.framework.recipes.cache.TreeCache;
import org.apache.curator.framework.recipes.leader.LeaderLatch;
import org.apache.curator.framework.recipes.locks.InterProcessMutex;
import org.apache.curator.framework.recipes.locks.InterProcessReadWriteLock;
import org.apache.curator.framework.recipes.locks.InterProcessSemaphoreV2;
import org.apache.curator.framework.recipes.locks.Lease;
import org.apache.curator.framework.recipes.nodes.PersistentNode;
import org.apache.curator.framework.recipes.shared.SharedCount;
import org.apache.curator.retry.RetryNTimes;
import org.apache.zookeeper.CreateMode;
import org.apache.zookeeper.WatchedEvent;
import org.apache.zookeeper.Watcher;
import org.apache.zookeeper.data.Stat;

public class Curator {
  static void check(String what, boolean holds) {
    if (!holds) {
      System.out.println("wrong: " + what);
      System.exit(1);
    }
  }

  static CuratorFramework connect(String host) throws Exception {
    CuratorFramework client = CuratorFrameworkFactory.builder().connectString(host).sessionTimeoutMs(10000).connectionTimeoutMs(5000)
        .retryPolicy(new RetryNTimes(3, 100)).ensembleTracker(false).dontUseContainerParents().build();
    client.start();
    check("connect", client.blockUntilConnected(10, TimeUnit.SECONDS));
    return client;
  }

  interface Wish {
    boolean holds() throws Exception;
  }

  static void soon(String what, Wish wish) throws Exception {
    for (int i = 0; i < 100 && !wish.holds(); i++) Thread.sleep(50);
    check(what, wish.holds());
  }

  static void framework(CuratorFramework a) throws Exception {
    Stat made = new Stat();
    a.create().creatingParentsIfNeeded().storingStatIn(made).forPath("/curator/deep/node", "x".getBytes());
    check("the stat of a create", made.equals(a.checkExists().forPath("/curator/deep/node")) && made.getDataLength() == 1);
    String path = a.create().withProtection().withMode(CreateMode.EPHEMERAL_SEQUENTIAL).forPath("/curator/mine-");
    check("an owner", a.checkExists().forPath(path).getEphemeralOwner() == a.getZookeeperClient().getZooKeeper().getSessionId());
    a.create().orSetData().forPath("/curator/deep/node", "y".getBytes());
    a.transaction().forOperations(a.transactionOp().create().forPath("/curator/t"), a.transactionOp().setData().forPath("/curator/t",
        "z".getBytes()), a.transactionOp().check().withVersion(1).forPath("/curator/t"), a.transactionOp().delete().forPath("/curator/t"));
    check("a transaction", a.checkExists().forPath("/curator/t") == null);
  }

  static void watches(CuratorFramework a) throws Exception {
    LinkedBlockingQueue<WatchedEvent> told = new LinkedBlockingQueue<>();
    Watcher watcher = told::add;
    a.create().forPath("/curator/w");
    a.getData().usingWatcher(watcher).forPath("/curator/w");
    a.watches().remove(watcher).forPath("/curator/w");
    soon("a watch was taken away", () -> told.size() == 1);
    a.getData().usingWatcher(watcher).forPath("/curator/w");
    a.getChildren().usingWatcher(watcher).forPath("/curator/w");
    a.watches().removeAll().ofType(Watcher.WatcherType.Any).forPath("/curator/w");
    soon("both were taken away", () -> told.size() == 3);
    a.setData().forPath("/curator/w", "x".getBytes());
    a.create().forPath("/curator/w/child");
    a.checkExists().forPath("/curator/w");
    check("nothing is told of them", told.size() == 3);
  }

  static void locks(CuratorFramework a, CuratorFramework b) throws Exception {
    InterProcessMutex mine = new InterProcessMutex(a, "/curator/lock"), theirs = new InterProcessMutex(b, "/curator/lock");
    check("a lock", mine.acquire(5, TimeUnit.SECONDS) && !theirs.acquire(500, TimeUnit.MILLISECONDS));
    mine.release();
    check("the next holder", theirs.acquire(5, TimeUnit.SECONDS));
    InterProcessReadWriteLock one = new InterProcessReadWriteLock(a, "/curator/rw");
    InterProcessReadWriteLock other = new InterProcessReadWriteLock(b, "/curator/rw");
    check("a reader", one.readLock().acquire(5, TimeUnit.SECONDS) && !other.writeLock().acquire(500, TimeUnit.MILLISECONDS));
    one.readLock().release();
    check("a writer", other.writeLock().acquire(5, TimeUnit.SECONDS));
    InterProcessSemaphoreV2 first = new InterProcessSemaphoreV2(a, "/curator/semaphore", 1);
    InterProcessSemaphoreV2 second = new InterProcessSemaphoreV2(b, "/curator/semaphore", 1);
    Lease lease = first.acquire(5, TimeUnit.SECONDS);
    check("a lease", lease != null && second.acquire(500, TimeUnit.MILLISECONDS) == null);
    first.returnLease(lease);
    check("the next lease", second.acquire(5, TimeUnit.SECONDS) != null);
  }

  static void leaders(CuratorFramework a, CuratorFramework b) throws Exception {
    LeaderLatch mine = new LeaderLatch(a, "/curator/leader"), theirs = new LeaderLatch(b, "/curator/leader");
    mine.start();
    check("a leader", mine.await(5, TimeUnit.SECONDS));
    theirs.start();
    check("one leader", !theirs.await(500, TimeUnit.MILLISECONDS));
    mine.close();
    check("the next leader", theirs.await(5, TimeUnit.SECONDS));
    theirs.close();
  }

  static void shared(CuratorFramework a, CuratorFramework b) throws Exception {
    DistributedAtomicLong mine = new DistributedAtomicLong(a, "/curator/long", new RetryNTimes(5, 10));
    DistributedAtomicLong theirs = new DistributedAtomicLong(b, "/curator/long", new RetryNTimes(5, 10));
    check("counted", mine.increment().succeeded() && theirs.increment().succeeded() && mine.add(0L).postValue() == 2);
    SharedCount count = new SharedCount(a, "/curator/count", 1);
    count.start();
    count.setCount(5);
    check("a count", count.getCount() == 5);
    count.close();
    DistributedDoubleBarrier in = new DistributedDoubleBarrier(a, "/curator/barrier", 2);
    DistributedDoubleBarrier out = new DistributedDoubleBarrier(b, "/curator/barrier", 2);
    Future<Boolean> both = Executors.newSingleThreadExecutor().submit(() -> in.enter(5, TimeUnit.SECONDS) && in.leave(5, TimeUnit.SECONDS));
    check("a barrier", out.enter(5, TimeUnit.SECONDS) && out.leave(5, TimeUnit.SECONDS) && both.get());
  }

  static void caches(CuratorFramework a, CuratorFramework b) throws Exception {
    PersistentNode node = new PersistentNode(a, CreateMode.EPHEMERAL, false, "/curator/present", "x".getBytes());
    node.start();
    check("a node of its own", node.waitForInitialCreate(5, TimeUnit.SECONDS));
    NodeCache one = new NodeCache(b, "/curator/deep/node");
    TreeCache all = new TreeCache(b, "/curator");
    one.start(true);
    all.start();
    a.setData().forPath("/curator/deep/node", "news".getBytes());
    a.create().creatingParentsIfNeeded().forPath("/curator/deep/er/and/deeper", "x".getBytes());
    soon("a node is followed", () -> new String(one.getCurrentData().getData()).equals("news"));
    soon("a tree is followed", () -> all.getCurrentData("/curator/deep/er/and/deeper") != null);
    soon("an ephemeral node is seen", () -> all.getCurrentData("/curator/present") != null);
    node.close();
    soon("and that it is gone", () -> all.getCurrentData("/curator/present") == null);
    one.close();
    all.close();
  }

  public static void main(String[] hosts) throws Exception {
    CuratorFramework a = connect(hosts[0]), b = connect(hosts[1]);
    framework(a);
    watches(a);
    locks(a, b);
    leaders(a, b);
    shared(a, b);
    caches(a, b);
    a.close();
    b.close();
    System.out.println("ok");
    System.exit(0);
  }
}
