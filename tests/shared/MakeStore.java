import java.io.FileInputStream;
import java.io.FileOutputStream;
import java.nio.file.Files;
import java.nio.file.Path;
import java.security.KeyStore;
import java.util.Collections;
import org.bouncycastle.jcajce.PKCS12StoreParameter;
import org.bouncycastle.jce.provider.BouncyCastleProvider;

/**
 * Writes the private keys of a store, with their names and chains, into a new one as BouncyCastle makes it.
 *
 * <p>Arguments: the store; the file whose first line is the password of both; the type of the new one, such as PKCS12-3DES-3DES; DER or
 * BER; and the new one.
 */
final class MakeStore {
    public static void main(String[] arguments) throws Exception {
        char[] password = Files.readAllLines(Path.of(arguments[1])).get(0).toCharArray();
        KeyStore from = KeyStore.getInstance("PKCS12");
        try (FileInputStream input = new FileInputStream(arguments[0])) {
            from.load(input, password);
        }
        KeyStore to = KeyStore.getInstance(arguments[2], new BouncyCastleProvider());
        to.load(null, null);
        for (String name : Collections.list(from.aliases())) {
            to.setKeyEntry(name, from.getKey(name, password), null, from.getCertificateChain(name));
        }
        try (FileOutputStream output = new FileOutputStream(arguments[4])) {
            to.store(new PKCS12StoreParameter(output, password, arguments[3].equals("DER")));
        }
    }
}
