import java.net.InetSocketAddress;
import java.util.ArrayList;
import java.util.HashMap;
import java.util.List;
import java.util.Map;
import java.util.Objects;
import java.util.concurrent.TimeUnit;
import net.spy.memcached.AddrUtil;
import net.spy.memcached.CASResponse;
import net.spy.memcached.CASValue;
import net.spy.memcached.ConnectionFactoryBuilder;
import net.spy.memcached.ConnectionFactoryBuilder.Protocol;
import net.spy.memcached.MemcachedClient;

/** The ordinary calls of spymemcached over a port, in the protocol of the second word. */
public class Spymemcached {
    static void check(Object found, Object due, String what) {
        if (!Objects.equals(found, due)) {
            System.out.println(what + ": " + found + " where " + due + " is due");
            System.exit(1);
        }
    }

    public static void main(String[] words) throws Exception {
        java.util.logging.LogManager.getLogManager().reset();
        System.setProperty("net.spy.log.LoggerImpl", "net.spy.memcached.compat.log.SunLogger");
        Protocol protocol = words[1].equals("binary") ? Protocol.BINARY : Protocol.TEXT;
        MemcachedClient c = new MemcachedClient(new ConnectionFactoryBuilder().setProtocol(protocol).setOpTimeout(20000).build(), AddrUtil.getAddresses("127.0.0.1:" + words[0]));
        check(c.flush().get(), true, "flush");
        check(c.set("a", 0, "x").get(), true, "set");
        check(List.of(c.get("a"), c.add("a", 0, "y").get(), c.replace("none", 0, "y").get()), List.of("x", false, false), "get, add and replace");
        check(c.get("none"), null, "get of none");
        check(List.of(c.incr("n", 5, 10, 100), c.incr("n", 5), c.decr("n", 100)), List.of(10L, 15L, 0L), "counts, the first of none");
        CASValue<Object> found = c.gets("a");
        check(List.of(c.cas("a", found.getCas() + 1000, "w"), c.cas("a", found.getCas(), "w"), c.cas("none", 1, "w")), List.of(CASResponse.EXISTS, CASResponse.OK, CASResponse.NOT_FOUND), "cas");
        check(List.of(c.append(0, "a", "1").get(), c.prepend(0, "a", "0").get(), c.get("a")), List.of(true, true, "0w1"), "append and prepend");
        check(List.of(c.touch("a", 100).get(), c.touch("none", 100).get()), List.of(true, false), "touch");
        Map<String, Object> many = new HashMap<>();
        List<String> keys = new ArrayList<>();
        for (int i = 0; i < 300; i++) {
            many.put("m" + i, i);
            c.set("m" + i, 0, i);
            keys.add("m" + i);
            keys.add("absent" + i);
        }
        check(c.getBulk(keys), many, "get of many");
        String page = "p".repeat(900_000);
        check(List.of(c.set("page", 0, page).get(), c.get("page").equals(page)), List.of(true, true), "a long value");
        check(List.of(c.delete("a").get(), c.delete("a").get()), List.of(true, false), "delete");
        check(c.getStats().values().iterator().next().containsKey("pid"), true, "stats");
        check(c.getVersions().values().iterator().next(), "1.6.18", "version");
        check(c.flush().get(), true, "flush");
        check(c.get("m1"), null, "get behind a flush");
        c.shutdown(5, TimeUnit.SECONDS);
        System.exit(0);
    }
}
