import java.io.FileInputStream;
import java.nio.file.Files;
import java.nio.file.Path;
import java.security.KeyStore;
import java.security.Provider;
import java.security.cert.Certificate;
import java.util.ArrayList;
import java.util.Base64;
import java.util.Collections;
import java.util.List;

/**
 * Prints the certificates of a store that are entries of their own, and then its private keys, each with its name and its chain, in the
 * order of the names.
 *
 * <p>Arguments: the store; the file whose first line is the password; and, where another library is to read than Java's own, the class
 * of its provider.
 */
final class ReadStore {
    public static void main(String[] arguments) throws Exception {
        char[] password = Files.readAllLines(Path.of(arguments[1])).get(0).toCharArray();
        KeyStore store = arguments.length > 2 ? of(arguments[2]) : KeyStore.getInstance(KeyStore.getDefaultType());
        try (FileInputStream input = new FileInputStream(arguments[0])) {
            store.load(input, password);
        }
        List<String> names = new ArrayList<>(Collections.list(store.aliases()));
        Collections.sort(names);
        for (String name : names) {
            if (!store.isKeyEntry(name)) {
                print("CERTIFICATE", store.getCertificate(name).getEncoded());
            }
        }
        for (String name : names) {
            if (!store.isKeyEntry(name)) {
                continue;
            }
            System.out.println("name: " + name);
            print("PRIVATE KEY", store.getKey(name, password).getEncoded());
            for (Certificate each : store.getCertificateChain(name)) {
                print("CERTIFICATE", each.getEncoded());
            }
        }
    }

    private static KeyStore of(String provider) throws Exception {
        return KeyStore.getInstance("PKCS12", (Provider) Class.forName(provider).getDeclaredConstructor().newInstance());
    }

    private static void print(String label, byte[] octets) {
        System.out.println("-----BEGIN " + label + "-----");
        System.out.println(Base64.getMimeEncoder(64, new byte[] {'\n'}).encodeToString(octets));
        System.out.println("-----END " + label + "-----");
    }
}
