import java.sql.Connection;
import java.sql.DriverManager;
import java.sql.ResultSet;
import java.sql.SQLException;
import java.sql.Statement;

/**
 * Stores pairs of words by H2 or Derby, each in a transaction, and acknowledges each; or prints all.
 * The first word is the store, the second `all` or the first of the pairs.
 */
public class Store {
    public static void main(String[] words) throws Exception {
        String place = words[0].equals("h2")
            ? "jdbc:h2:./test;WRITE_DELAY=0;FILE_LOCK=NO"
            : "jdbc:derby:test;create=true";
        try (Connection connection = DriverManager.getConnection(place)) {
            Statement statement = connection.createStatement();
            if (words[1].equals("all")) {
                print(statement);
            } else {
                store(statement, words);
            }
        } catch (SQLException fault) {
            for (Throwable one = fault; one != null; one = one.getCause()) {
                System.out.println(one.getMessage());
            }
            Runtime.getRuntime().halt(1);
        }
        Runtime.getRuntime().halt(0);
    }

    static void store(Statement statement, String[] words) throws SQLException {
        if (words[1].equals("zero")) {
            statement.execute("CREATE TABLE pair (name VARCHAR(9), amount VARCHAR(9))");
        }
        for (int place = 1; place < words.length; place += 2) {
            String values = "'" + words[place] + "', '" + words[place + 1] + "'";
            statement.execute("INSERT INTO pair VALUES (" + values + ")");
            System.out.println(words[place] + " " + words[place + 1]);
        }
    }

    static void print(Statement statement) throws SQLException {
        ResultSet found = statement.executeQuery("SELECT name, amount FROM pair");
        while (found.next()) {
            System.out.println(found.getString(1) + " " + found.getString(2));
        }
    }
}
