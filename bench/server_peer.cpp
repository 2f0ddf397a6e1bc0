/* A metastore that a user would write by hand over Apache Thrift's C++ server: a thread for each connection, one lock,
   everything in memory alone, and no check but of names that are taken or not there. `server_peer PORT`.
   Build it beside the code that `thrift --gen cpp idl/metastore.thrift` makes; with FILTERS where that has
   get_partitions_by_filter. */
#include <thrift/protocol/TBinaryProtocol.h>
#include <thrift/server/TThreadedServer.h>
#include <thrift/transport/TBufferTransports.h>
#include <thrift/transport/TServerSocket.h>
#include <thrift/transport/TSocket.h>

#include <algorithm>
#include <cstring>
#include <ctime>
#include <functional>
#include <map>
#include <mutex>
#include <string>

#include "ThriftHiveMetastore.h"

using namespace Apache::Hadoop::Hive;
using namespace apache::thrift;
using Buffered = transport::TBufferedTransport;
using Protocol = protocol::TBinaryProtocolT<Buffered>;
using Values = std::vector<std::string>;

template <class Exception>
[[noreturn]] static void refuse(const char* text) {
  Exception told;
  told.message = text;
  throw told;
}

static int32_t now() { return static_cast<int32_t>(std::time(nullptr)); }

#ifdef FILTERS
using Test = std::function<bool(const Values&)>;

/* Reads a filter once, by recursive descent: `key op literal`, `and`, `or` and parentheses. */
class Filter {
  const std::vector<FieldSchema>& keys;
  const char* at;

  void blanks() { at += std::strspn(at, " \t\r\n"); }
  bool take(const char* token) {
    blanks();
    size_t length = std::strlen(token);
    bool found = strncasecmp(at, token, length) == 0;
    at += found ? length : 0;
    return found;
  }
  size_t key() {
    blanks();
    std::string name;
    while (std::isalnum(*at) || *at == '_') name += std::tolower(*at++);
    for (size_t i = 0; i < keys.size(); i++)
      if (keys[i].name == name) return i;
    refuse<MetaException>("filter: unknown key");
  }
  std::function<int(const std::string&)> literal() {  // the order of a value and the literal that comes
    blanks();
    if (*at == '\'') {
      const char* end = std::strchr(at + 1, '\'');
      if (!end) refuse<MetaException>("filter: syntax");
      std::string text(at + 1, end);
      at = end + 1;
      return [text](const std::string& value) { return value.compare(text); };
    }
    char* end;
    long wanted = std::strtol(at, &end, 10);
    if (end == at) refuse<MetaException>("filter: syntax");
    at = end;
    return [wanted](const std::string& value) {
      long number = std::strtol(value.c_str(), nullptr, 10);
      return number < wanted ? -1 : number > wanted;
    };
  }
  template <class Holds>
  Test compared(size_t key, Holds holds) {
    auto order = literal();
    return [key, holds, order](const Values& values) { return holds(order(values[key])); };
  }
  Test term() {
    if (take("(")) {
      Test inner = either();
      if (!take(")")) refuse<MetaException>("filter: syntax");
      return inner;
    }
    size_t place = key();
    if (take("<=")) return compared(place, [](int order) { return order <= 0; });
    if (take(">=")) return compared(place, [](int order) { return order >= 0; });
    if (take("!=") || take("<>")) return compared(place, [](int order) { return order != 0; });
    if (take("<")) return compared(place, [](int order) { return order < 0; });
    if (take(">")) return compared(place, [](int order) { return order > 0; });
    if (take("=")) return compared(place, [](int order) { return order == 0; });
    refuse<MetaException>("filter: syntax");
  }
  Test both() {
    Test all = term();
    while (take("and")) {
      Test left = all, right = term();
      all = [left, right](const Values& values) { return left(values) && right(values); };
    }
    return all;
  }
  Test either() {
    Test any = both();
    while (take("or")) {
      Test left = any, right = both();
      any = [left, right](const Values& values) { return left(values) || right(values); };
    }
    return any;
  }

 public:
  Filter(const std::vector<FieldSchema>& keys, const std::string& text) : keys(keys), at(text.c_str()) {}
  Test test() {
    blanks();
    if (!*at) return [](const Values&) { return true; };
    Test whole = either();
    blanks();
    if (*at) refuse<MetaException>("filter: syntax");
    return whole;
  }
};
#endif

class Metastore : public ThriftHiveMetastoreNull {
  struct Stored {
    Table table;
    std::map<Values, Partition> partitions;
  };
  std::mutex turn;
  std::map<std::string, std::map<std::string, Stored>> databases;

  Stored& find(const std::string& dbname, const std::string& name) {
    auto database = databases.find(dbname);
    if (database == databases.end()) refuse<NoSuchObjectException>("no such object");
    auto stored = database->second.find(name);
    if (stored == database->second.end()) refuse<NoSuchObjectException>("no such object");
    return stored->second;
  }
  const Partition& add(const Partition& handed) {
    auto added = find(handed.dbName, handed.tableName).partitions.emplace(handed.values, handed);
    if (!added.second) refuse<AlreadyExistsException>("already exists");
    Partition& partition = added.first->second;
    partition.createTime = now();
    partition.parameters["transient_lastDdlTime"] = std::to_string(partition.createTime);
    return partition;
  }
  static Values values_of(const std::string& name) {  // the load's names have nothing that is escaped
    Values values;
    for (size_t at = 0; at < name.size();) {
      size_t equals = name.find('=', at), slash = std::min(name.find('/', at), name.size());
      values.push_back(name.substr(equals + 1, slash - equals - 1));
      at = slash + 1;
    }
    return values;
  }

 public:
  void create_database(const Database& database) override {
    std::lock_guard<std::mutex> mine(turn);
    if (!databases.emplace(database.name, std::map<std::string, Stored>()).second) refuse<AlreadyExistsException>("already exists");
  }
  void get_database(Database& answer, const std::string& name) override {
    std::lock_guard<std::mutex> mine(turn);
    if (databases.count(name) == 0) refuse<NoSuchObjectException>("no such object");
    answer.__set_name(name);
  }
  void create_table(const Table& handed) override {
    std::lock_guard<std::mutex> mine(turn);
    auto database = databases.find(handed.dbName);
    if (database == databases.end()) refuse<NoSuchObjectException>("no such object");
    auto made = database->second.emplace(handed.tableName, Stored{handed, {}});
    if (!made.second) refuse<AlreadyExistsException>("already exists");
    Table& table = made.first->second.table;
    table.createTime = now();
    table.parameters["transient_lastDdlTime"] = std::to_string(table.createTime);
  }
  void get_table(Table& answer, const std::string& dbname, const std::string& name) override {
    std::lock_guard<std::mutex> mine(turn);
    answer = find(dbname, name).table;
  }
  void add_partition(Partition& answer, const Partition& handed) override {
    std::lock_guard<std::mutex> mine(turn);
    answer = add(handed);
  }
  int32_t add_partitions(const std::vector<Partition>& handed) override {
    std::lock_guard<std::mutex> mine(turn);
    for (const Partition& partition : handed) add(partition);
    return static_cast<int32_t>(handed.size());
  }
  void get_partitions_by_names(std::vector<Partition>& answer, const std::string& dbname, const std::string& name, const Values& names) override {
    std::lock_guard<std::mutex> mine(turn);
    Stored& stored = find(dbname, name);
    for (const std::string& asked : names) {
      auto partition = stored.partitions.find(values_of(asked));
      if (partition != stored.partitions.end()) answer.push_back(partition->second);
    }
  }
#ifdef FILTERS
  void get_partitions_by_filter(std::vector<Partition>& answer, const std::string& dbname, const std::string& name, const std::string& text, int16_t) override {
    std::lock_guard<std::mutex> mine(turn);
    Stored& stored = find(dbname, name);
    Test holds = Filter(stored.table.partitionKeys, text).test();
    for (const auto& partition : stored.partitions)
      if (holds(partition.first)) answer.push_back(partition.second);
  }
#endif
};

// All messages of a connection count together against the limit of one.
static const auto WIDE = std::make_shared<TConfiguration>(2147483647);

struct Buffers : transport::TTransportFactory {
  std::shared_ptr<transport::TTransport> getTransport(std::shared_ptr<transport::TTransport> plain) override {
    return std::make_shared<Buffered>(plain, 65536, WIDE);
  }
};

struct Door : transport::TServerSocket {
  using TServerSocket::TServerSocket;
  std::shared_ptr<transport::TSocket> createSocket(THRIFT_SOCKET handle) override {
    auto socket = std::make_shared<transport::TSocket>(handle, WIDE);
    socket->setNoDelay(true);
    return socket;
  }
};

int main(int argc, char** argv) {
  if (argc != 2) return 2;
  auto processor = std::make_shared<ThriftHiveMetastoreProcessorT<Protocol>>(std::make_shared<Metastore>());
  auto protocols = std::make_shared<protocol::TBinaryProtocolFactoryT<Buffered>>();
  server::TThreadedServer(processor, std::make_shared<Door>("127.0.0.1", std::stoi(argv[1])), std::make_shared<Buffers>(), protocols).serve();
}
