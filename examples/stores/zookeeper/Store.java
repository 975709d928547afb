import java.io.File;
import java.net.InetAddress;
import java.net.InetSocketAddress;
import org.apache.zookeeper.CreateMode;
import org.apache.zookeeper.ZooDefs;
import org.apache.zookeeper.ZooKeeper;
import org.apache.zookeeper.data.Stat;
import org.apache.zookeeper.server.NIOServerCnxnFactory;
import org.apache.zookeeper.server.ZKDatabase;
import org.apache.zookeeper.server.ZooKeeperServer;
import org.apache.zookeeper.server.persistence.FileTxnSnapLog;

/** Makes nodes by ZooKeeper, and acknowledges each; or prints all that the files here have. */
public class Store {
    public static void main(String[] words) throws Exception {
        File here = new File(".");
        if (words[0].equals("all")) {
            try {
                print(new ZKDatabase(new FileTxnSnapLog(here, here)));
            } catch (Throwable fault) {
                System.out.println(fault);
                Runtime.getRuntime().halt(1);
            }
            Runtime.getRuntime().halt(0);
        }
        ZooKeeperServer server = new ZooKeeperServer(here, here, 2000);
        NIOServerCnxnFactory factory = new NIOServerCnxnFactory();
        factory.configure(new InetSocketAddress(InetAddress.getLoopbackAddress(), 0), 9);
        factory.startup(server);
        String place = "127.0.0.1:" + factory.getLocalPort();
        ZooKeeper client = new ZooKeeper(place, 30000, event -> { });
        for (int number = 0; number < words.length; number += 2) {
            byte[] value = words[number + 1].getBytes();
            client.create("/" + words[number], value, ZooDefs.Ids.OPEN_ACL_UNSAFE,
                CreateMode.PERSISTENT);
            System.out.println(words[number] + " " + words[number + 1]);
        }
        Runtime.getRuntime().halt(0);
    }

    static void print(ZKDatabase database) throws Exception {
        database.loadDataBase();
        for (String name : database.getChildren("/", new Stat(), null)) {
            if (!name.equals("zookeeper")) {
                byte[] value = database.getData("/" + name, new Stat(), null);
                System.out.println(name + " " + new String(value));
            }
        }
    }
}
