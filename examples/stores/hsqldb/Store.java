import java.sql.Connection;
import java.sql.DriverManager;
import java.sql.ResultSet;
import java.sql.Statement;

/** Stores pairs of words by HSQLDB, each in a transaction, and acknowledges each; or prints all. */
public class Store {
    static final String PLACE = "jdbc:hsqldb:file:test;hsqldb.write_delay=false";

    public static void main(String[] words) throws Exception {
        try (Connection connection = DriverManager.getConnection(PLACE, "SA", "")) {
            Statement statement = connection.createStatement();
            if (words[0].equals("all")) {
                print(statement);
                return;
            }
            statement.execute("CREATE TABLE IF NOT EXISTS row (name VARCHAR(9), value VARCHAR(9))");
            for (int place = 0; place < words.length; place += 2) {
                String values = "'" + words[place] + "', '" + words[place + 1] + "'";
                statement.execute("INSERT INTO row VALUES (" + values + ")");
                System.out.println(words[place] + " " + words[place + 1]);
            }
            statement.execute("SHUTDOWN");
        } catch (java.sql.SQLException fault) {
            System.out.println(fault.getMessage());
            System.exit(1);
        }
    }

    static void print(Statement statement) throws java.sql.SQLException {
        ResultSet found = statement.executeQuery("SELECT name, value FROM row");
        while (found.next()) {
            System.out.println(found.getString(1) + " " + found.getString(2));
        }
    }
}
