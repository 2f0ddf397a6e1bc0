/* A metastore that a user would write by hand over Apache Thrift's C++ library: it answers the messages of its input
   on its output, keeps its tables in memory alone, and checks nothing but names that are taken or not there.
   Build it beside the code that `thrift --gen cpp idl/metastore.thrift` makes. */
#include <thrift/protocol/TBinaryProtocol.h>
#include <thrift/transport/TBufferTransports.h>
#include <thrift/transport/TFDTransport.h>

#include <ctime>
#include <map>
#include <string>

#include "ThriftHiveMetastore.h"

using namespace Apache::Hadoop::Hive;
using namespace apache::thrift;
using Buffered = transport::TBufferedTransport;
using Protocol = protocol::TBinaryProtocolT<Buffered>;

template <class Exception>
[[noreturn]] static void refuse(const char* text) {
  Exception told;
  told.message = text;
  throw told;
}

class Metastore : public ThriftHiveMetastoreNull {
  std::map<std::string, std::map<std::string, Table>> databases;

 public:
  int32_t getStatus() override { return 2; }
  void create_database(const Database& database) override {
    if (!databases.emplace(database.name, std::map<std::string, Table>()).second) refuse<AlreadyExistsException>("already exists");
  }
  void create_table(const Table& handed) override {
    auto database = databases.find(handed.dbName);
    if (database == databases.end()) refuse<NoSuchObjectException>("no such object");
    auto made = database->second.emplace(handed.tableName, handed);
    if (!made.second) refuse<AlreadyExistsException>("already exists");
    Table& table = made.first->second;
    table.createTime = static_cast<int32_t>(std::time(nullptr));
    table.parameters["transient_lastDdlTime"] = std::to_string(table.createTime);
  }
  void get_table(Table& answer, const std::string& dbname, const std::string& name) override {
    auto database = databases.find(dbname);
    if (database == databases.end()) refuse<NoSuchObjectException>("no such object");
    auto table = database->second.find(name);
    if (table == database->second.end()) refuse<NoSuchObjectException>("no such object");
    answer = table->second;
  }
  void get_all_tables(std::vector<std::string>& names, const std::string& dbname) override {
    for (const auto& table : databases[dbname]) names.push_back(table.first);
  }
};

int main() {
  // All messages of a connection count together against the limit of one.
  auto wide = std::make_shared<TConfiguration>(2147483647);
  auto end = [&wide](int file) {
    auto plain = std::make_shared<transport::TFDTransport>(file, transport::TFDTransport::NO_CLOSE_ON_DESTROY, wide);
    return std::make_shared<Protocol>(std::make_shared<Buffered>(plain, 65536, wide));
  };
  std::shared_ptr<protocol::TProtocol> input = end(0), output = end(1);
  ThriftHiveMetastoreProcessorT<Protocol> processor(std::make_shared<Metastore>());
  try {
    while (processor.process(input, output, nullptr)) {
    }
  } catch (const transport::TTransportException& fault) {
    return fault.getType() == transport::TTransportException::END_OF_FILE ? 0 : 1;
  }
  return 1;
}
