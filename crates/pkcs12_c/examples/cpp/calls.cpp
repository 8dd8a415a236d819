// Three calls of the library:
//
//   calls transfer STORE PASSWORD-FILE NEW-PASSWORD-FILE     writes the certificates and the sealed keys of a store as PEM text
//   calls upgrade STORE PASSWORD-FILE NEW-PASSWORD-FILE      writes the store under the algorithms of today
//   calls create KEY CERTIFICATES PASSWORD-FILE [NAME [KEY-PASSWORD-FILE]]     writes a store of PEM texts
//
//   c++ -std=c++17 calls.cpp -o calls $(pkg-config --cflags --libs pkcs12)
#define PKCS12_ONE_STEP
#include <pkcs12.h>

#include <algorithm>
#include <fstream>
#include <iostream>
#include <memory>
#include <optional>
#include <stdexcept>
#include <string>
#include <string_view>

namespace pkcs12 {

// Why a call is refused: one of the numbers of pkcs12.h.
struct Refused : std::runtime_error {
    explicit Refused(std::uint32_t number)
        : std::runtime_error("refused (" + std::to_string(number) + "): " + pkcs12_strerror(number)), number(number) {}
    std::uint32_t number;
};

inline const std::uint8_t *octets(std::string_view text) { return reinterpret_cast<const std::uint8_t *>(text.data() ? text.data() : ""); }

// What a call wrote, which is freed, or its refusal.
template <typename Octet> std::string owned(std::uint32_t number, Octet *octets, std::size_t len)
{
    const std::unique_ptr<Octet, decltype(&std::free)> owner(octets, std::free);
    if (number != PKCS12_DONE)
        throw Refused(number);
    return std::string(reinterpret_cast<const char *>(octets), len);
}

// The PEM text of a store, its keys sealed under the new password.
inline std::string transfer_pem(std::string_view store, std::string_view password, std::string_view new_password,
    std::uint32_t rounds = PKCS12_ROUNDS_DEFAULT, std::uint64_t limit = PKCS12_LIMIT_DEFAULT)
{
    char *text = nullptr;
    std::size_t len = 0;
    const std::uint32_t number = pkcs12_transfer_pem_new(octets(store), store.size(), octets(password), password.size(),
        octets(new_password), new_password.size(), rounds, limit, &text, &len);
    return owned(number, text, len);
}

// The store under the algorithms of today, with parts and a MAC of so many rounds. The new password may be the old one.
inline std::string upgrade(std::string_view store, std::string_view password, std::string_view new_password,
    std::uint32_t rounds = PKCS12_ROUNDS_DEFAULT, std::uint64_t limit = PKCS12_LIMIT_DEFAULT)
{
    std::uint8_t *changed = nullptr;
    std::size_t len = 0;
    const std::uint32_t number = pkcs12_upgrade_new(octets(store), store.size(), octets(password), password.size(),
        octets(new_password), new_password.size(), rounds, limit, &changed, &len);
    return owned(number, changed, len);
}

// A store of the private key and the certificates of PEM texts, which may be one text.
inline std::string create_pem(std::string_view key, std::string_view certificates, std::string_view password,
    std::optional<std::string_view> name = std::nullopt, std::optional<std::string_view> key_password = std::nullopt,
    std::uint32_t rounds = PKCS12_ROUNDS_DEFAULT, std::uint32_t limit = PKCS12_LIMIT_DEFAULT)
{
    const std::string_view key_secret = key_password.value_or(""), friendly = name.value_or("");
    std::uint8_t *store = nullptr;
    std::size_t len = 0;
    const std::uint32_t number = pkcs12_create_pem_new(octets(key), key.size(), octets(certificates), certificates.size(),
        octets(key_secret), key_secret.size(), octets(friendly), friendly.size(), octets(password), password.size(), rounds, limit,
        &store, &len);
    return owned(number, store, len);
}

} // namespace pkcs12

// The octets of a file, and of one that is longer than a store may be its first ones.
static std::string contents(const char *path)
{
    std::ifstream file(path, std::ios::binary);
    std::string octets(PKCS12_STORE_MAX + 1, '\0');
    file.read(&octets[0], static_cast<std::streamsize>(octets.size()));
    if (!file.is_open() || file.bad())
        throw std::runtime_error(std::string("cannot read ") + path);
    octets.resize(static_cast<std::size_t>(file.gcount()));
    return octets;
}

static std::string first_line(const char *path)
{
    std::string line = contents(path);
    line.resize(std::min(line.find('\n'), line.size()));
    if (!line.empty() && line.back() == '\r')
        line.pop_back();
    return line;
}

// What the call that the words name gives.
static std::string called(int argc, char **argv)
{
    const std::string call = argv[1];
    if (call != "create") {
        const std::string store = contents(argv[2]), password = first_line(argv[3]), new_password = first_line(argv[4]);
        return call == "transfer" ? pkcs12::transfer_pem(store, password, new_password)
                                  : pkcs12::upgrade(store, password, new_password);
    }
    const std::string key = contents(argv[2]), certificates = contents(argv[3]), password = first_line(argv[4]);
    const std::string key_password = argc > 6 ? first_line(argv[6]) : std::string();
    return pkcs12::create_pem(key, certificates, password, argc > 5 ? std::optional<std::string_view>(argv[5]) : std::nullopt,
        key_password);
}

int main(int argc, char **argv)
{
    const std::string call = argc > 1 ? argv[1] : "";
    if (!((call == "transfer" || call == "upgrade") && argc == 5) && !(call == "create" && argc >= 5 && argc <= 7)) {
        std::cerr << "usage: calls transfer|upgrade STORE PASSWORD-FILE NEW-PASSWORD-FILE\n"
                     "       calls create KEY CERTIFICATES PASSWORD-FILE [NAME [KEY-PASSWORD-FILE]]\n";
        return 2;
    }
    try {
        std::cout << called(argc, argv) << std::flush;
        return std::cout ? 0 : 4;
    } catch (const pkcs12::Refused &refused) {
        std::cerr << refused.what() << '\n';
        return static_cast<int>(refused.number);
    } catch (const std::exception &fault) {
        std::cerr << fault.what() << '\n';
        return 3;
    }
}
