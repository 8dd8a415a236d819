import java.io.FileInputStream;
import java.nio.file.Files;
import java.nio.file.Path;
import java.security.KeyStore;
import java.security.PrivateKey;
import java.security.cert.X509Certificate;
import org.bouncycastle.asn1.DERBMPString;
import org.bouncycastle.asn1.DERNull;
import org.bouncycastle.asn1.nist.NISTObjectIdentifiers;
import org.bouncycastle.asn1.x509.AlgorithmIdentifier;
import org.bouncycastle.asn1.x509.SubjectKeyIdentifier;
import org.bouncycastle.cert.jcajce.JcaX509ExtensionUtils;
import org.bouncycastle.crypto.digests.SHA256Digest;
import org.bouncycastle.crypto.util.ScryptConfig;
import org.bouncycastle.jce.provider.BouncyCastleProvider;
import org.bouncycastle.operator.OutputEncryptor;
import org.bouncycastle.pkcs.PKCS12PfxPdu;
import org.bouncycastle.pkcs.PKCS12PfxPduBuilder;
import org.bouncycastle.pkcs.PKCS12SafeBag;
import org.bouncycastle.pkcs.PKCS12SafeBagBuilder;
import org.bouncycastle.pkcs.bc.BcPKCS12MacCalculatorBuilder;
import org.bouncycastle.pkcs.jcajce.JcaPKCS12SafeBagBuilder;
import org.bouncycastle.pkcs.jcajce.JcePKCSPBEOutputEncryptorBuilder;

/**
 * Writes the first private key of a store and its certificate into a new one that is encrypted by PBES2 with scrypt and AES-256-CBC.
 *
 * <p>Arguments: the store; the file whose first line is the password of both; N, r and p of scrypt; and the new one.
 */
final class MakeScryptStore {
    private static char[] password;

    private static OutputEncryptor encryptor(String[] arguments) throws Exception {
        ScryptConfig costs =
                new ScryptConfig.Builder(
                                Integer.parseInt(arguments[2]), Integer.parseInt(arguments[3]), Integer.parseInt(arguments[4]))
                        .withSaltLength(16)
                        .build();
        return new JcePKCSPBEOutputEncryptorBuilder(costs, NISTObjectIdentifiers.id_aes256_CBC)
                .setProvider(new BouncyCastleProvider())
                .build(password);
    }

    private static PKCS12SafeBag named(PKCS12SafeBagBuilder builder, SubjectKeyIdentifier identifier) {
        builder.addBagAttribute(PKCS12SafeBag.friendlyNameAttribute, new DERBMPString("a name"));
        builder.addBagAttribute(PKCS12SafeBag.localKeyIdAttribute, identifier);
        return builder.build();
    }

    public static void main(String[] arguments) throws Exception {
        password = Files.readAllLines(Path.of(arguments[1])).get(0).toCharArray();
        KeyStore from = KeyStore.getInstance("PKCS12");
        try (FileInputStream input = new FileInputStream(arguments[0])) {
            from.load(input, password);
        }
        String name = from.aliases().nextElement();
        X509Certificate certificate = (X509Certificate) from.getCertificate(name);
        SubjectKeyIdentifier identifier = new JcaX509ExtensionUtils().createSubjectKeyIdentifier(certificate.getPublicKey());
        PKCS12SafeBag certificateBag = named(new JcaPKCS12SafeBagBuilder(certificate), identifier);
        PKCS12SafeBag keyBag =
                named(new JcaPKCS12SafeBagBuilder((PrivateKey) from.getKey(name, password), encryptor(arguments)), identifier);
        PKCS12PfxPduBuilder store = new PKCS12PfxPduBuilder();
        store.addEncryptedData(encryptor(arguments), new PKCS12SafeBag[] {certificateBag});
        store.addData(keyBag);
        AlgorithmIdentifier sha256 = new AlgorithmIdentifier(NISTObjectIdentifiers.id_sha256, DERNull.INSTANCE);
        PKCS12PfxPdu made =
                store.build(new BcPKCS12MacCalculatorBuilder(new SHA256Digest(), sha256).setIterationCount(2048), password);
        Files.write(Path.of(arguments[5]), made.getEncoded("DER"));
    }
}
