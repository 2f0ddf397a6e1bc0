/* A load on a metastore that listens at a port of this machine, by clients of Apache Thrift's C++ library, each with a
   connection and a thread of its own. It prints what it measures as numbers.

       server_load PORT setup
           makes 200 tables of 50 columns, every tenth with 1,000 partitions, in a database `load`
       server_load PORT LOAD CONNECTIONS REQUESTS READERS
           so many connections make so many requests in all, while READERS others ask for a database, over and over;
           prints requests a second, the median of their microseconds, and the requests of the others a second

   LOAD is `get_table`; or `mixed`: half get_table, 15 % each of 10 partitions by their names and of 25 in 1,000 by a
   filter, 4 % create_table, 16 % add_partition; or `commit`: add_partition alone. Build it beside the code that
   `thrift --gen cpp idl/metastore.thrift` makes; with FILTERS where that has get_partitions_by_filter: else `mixed` has
   60 and 20 % in place of 50, 15 and 15. */
#include <thrift/protocol/TBinaryProtocol.h>
#include <thrift/transport/TBufferTransports.h>
#include <thrift/transport/TSocket.h>
#include <unistd.h>

#include <algorithm>
#include <atomic>
#include <chrono>
#include <iostream>
#include <map>
#include <random>
#include <stdexcept>
#include <thread>

#include "ThriftHiveMetastore.h"

using namespace Apache::Hadoop::Hive;
using namespace apache::thrift;
using Clock = std::chrono::steady_clock;
using Buffered = transport::TBufferedTransport;
using Client = ThriftHiveMetastoreClientT<protocol::TBinaryProtocolT<Buffered>>;

static const int TABLES = 200, PARTITIONED = 10, DAYS = 20, PER_DAY = 50;
// All messages of a connection count together against the limit of one.
static const auto WIDE = std::make_shared<TConfiguration>(2147483647);

enum Kind { GET_TABLE, BY_NAMES, BY_FILTER, CREATE_TABLE, ADD_PARTITION };
static const std::map<std::string, std::vector<int>> SHARES = {  // of a hundred requests
    {"get_table", {100, 0, 0, 0, 0}},
#ifdef FILTERS
    {"mixed", {50, 15, 15, 4, 16}},
#else
    {"mixed", {60, 20, 0, 4, 16}},
#endif
    {"commit", {0, 0, 0, 0, 100}}};

struct Connection {
  std::shared_ptr<transport::TSocket> socket;
  std::unique_ptr<Client> client;

  explicit Connection(int port) : socket(std::make_shared<transport::TSocket>("127.0.0.1", port, WIDE)) {
    socket->setNoDelay(true);
    socket->open();
    client.reset(new Client(std::make_shared<protocol::TBinaryProtocolT<Buffered>>(std::make_shared<Buffered>(socket, 65536, WIDE))));
  }
  Client* operator->() { return client.get(); }
};

static FieldSchema column(const std::string& name, const std::string& type) {
  FieldSchema made;
  made.__set_name(name);
  made.__set_type(type);
  return made;
}

static StorageDescriptor storage(int columns, const std::string& location) {
  static const char* types[] = {"bigint", "string", "decimal(18,2)", "timestamp", "array<struct<k:string,v:int>>"};
  StorageDescriptor made;
  for (int i = 0; i < columns; i++) {
    made.cols.push_back(column("column_" + std::to_string(i), types[i % 5]));
    if (i % 3 == 0) made.cols.back().__set_comment("what column " + std::to_string(i) + " holds");
  }
  made.__set_cols(made.cols);
  made.__set_location(location);
  made.__set_inputFormat("org.apache.hadoop.hive.ql.io.parquet.MapredParquetInputFormat");
  made.__set_outputFormat("org.apache.hadoop.hive.ql.io.parquet.MapredParquetOutputFormat");
  SerDeInfo serializer;
  serializer.__set_serializationLib("org.apache.hadoop.hive.ql.io.parquet.serde.ParquetHiveSerDe");
  serializer.__set_parameters({{"serialization.format", "1"}});
  made.__set_serdeInfo(serializer);
  return made;
}

static Table table(const std::string& name) {
  Table made;
  made.__set_tableName(name);
  made.__set_dbName("load");
  made.__set_owner("ana");
  made.__set_sd(storage(50, "hdfs://nn/warehouse/load.db/" + name));
  made.__set_partitionKeys({column("ds", "string"), column("n", "int")});
  made.__set_parameters({{"EXTERNAL", "TRUE"}, {"spark.sql.create.version", "3.5.1"}, {"spark.sql.sources.provider", "parquet"}});
  made.__set_tableType("EXTERNAL_TABLE");
  return made;
}

static std::string day(int number) { return "day_" + std::to_string(100000 + number); }

static Partition partition(const std::string& name, int of, int number) {
  Partition made;
  made.__set_values({day(of), std::to_string(number)});
  made.__set_dbName("load");
  made.__set_tableName(name);
  made.__set_sd(storage(2, "hdfs://nn/warehouse/load.db/" + name + "/ds=" + day(of) + "/n=" + std::to_string(number)));
  made.__set_parameters({{"numFiles", "4"}, {"totalSize", "123456789"}});
  return made;
}

static void setup(int port) {
  Connection connection(port);
  Database load;
  load.__set_name("load");
  connection->create_database(load);
  for (int i = 0; i < TABLES; i++) {
    std::string name = "t" + std::to_string(i);
    connection->create_table(table(name));
    std::vector<Partition> partitions;
    for (int k = 0; i % PARTITIONED == 0 && k < DAYS * PER_DAY; k++) partitions.push_back(partition(name, k / PER_DAY, k % PER_DAY));
    if (!partitions.empty()) connection->add_partitions(partitions);
  }
}

static void expect(size_t found, size_t wanted) {
  if (found != wanted) throw std::runtime_error(std::to_string(found) + " in place of " + std::to_string(wanted));
}

/* A client with a connection; what it makes has names of its own. */
class Caller {
  Connection connection;
  std::mt19937 chance;
  std::string own;
  int made = 0;
  std::vector<int> shares;

  void get_table() {
    Table found;
    connection->get_table(found, "load", "t" + std::to_string(chance() % TABLES));
    expect(found.sd.cols.size(), 50);
  }
  std::string partitioned() { return "t" + std::to_string(chance() % (TABLES / PARTITIONED) * PARTITIONED); }
  void by_names() {
    std::vector<std::string> names;
    std::string first = "ds=" + day(chance() % DAYS);
    for (int i = 0; i < 10; i++) names.push_back(first + "/n=" + std::to_string(i * 5));
    std::vector<Partition> found;
    connection->get_partitions_by_names(found, "load", partitioned(), names);
    expect(found.size(), 10);
  }
  void by_filter() {
#ifdef FILTERS
    std::vector<Partition> found;
    connection->get_partitions_by_filter(found, "load", partitioned(), "ds = '" + day(chance() % DAYS) + "' and n >= 25", -1);
    expect(found.size(), 25);
#endif
  }
  void create_table() { connection->create_table(table(own + std::to_string(made++))); }
  void add_partition() {
    Partition added;
    connection->add_partition(added, partition(own, made / 1000, made % 1000));
    made++;
  }

 public:
  std::vector<double> times;  // microseconds of each request

  Caller(int port, int number, const std::vector<int>& shares)
      : connection(port), chance(number), own("c" + std::to_string(getpid()) + "_" + std::to_string(number) + "_"), shares(shares) {
    if (shares[ADD_PARTITION]) connection->create_table(table(own));
  }
  void ask() {
    int drawn = chance() % 100, kind = 0;
    while ((drawn -= shares[kind]) >= 0) kind++;
    auto start = Clock::now();
    switch (kind) {
      case GET_TABLE: get_table(); break;
      case BY_NAMES: by_names(); break;
      case BY_FILTER: by_filter(); break;
      case CREATE_TABLE: create_table(); break;
      case ADD_PARTITION: add_partition(); break;
    }
    times.push_back(std::chrono::duration<double, std::micro>(Clock::now() - start).count());
  }
};

/* Runs work in a thread; a fault in it ends the program. */
template <class Work>
static std::thread begin(Work work) {
  return std::thread([work] {
    try {
      work();
    } catch (const std::exception& fault) {
      std::cerr << "server_load: " << fault.what() << std::endl;
      _exit(1);
    }
  });
}

static void run(int port, const std::vector<int>& shares, int connections, long requests, int readers) {
  std::vector<std::unique_ptr<Caller>> callers;
  for (int i = 0; i < connections; i++) callers.emplace_back(new Caller(port, i + 1, shares));
  std::vector<std::unique_ptr<Connection>> others;
  for (int i = 0; i < readers; i++) others.emplace_back(new Connection(port));
  std::atomic<long> left(requests), read(0);
  std::atomic<bool> ended(false);
  std::vector<std::thread> working, reading;
  auto start = Clock::now();
  for (auto& other : others)
    reading.push_back(begin([&] {
      Database found;
      for (; !ended; read++) (*other)->get_database(found, "load");
    }));
  for (auto& caller : callers)
    working.push_back(begin([&] {
      while (left-- > 0) caller->ask();
    }));
  for (auto& thread : working) thread.join();
  double seconds = std::chrono::duration<double>(Clock::now() - start).count();
  ended = true;
  for (auto& thread : reading) thread.join();
  std::vector<double> times;
  for (auto& caller : callers) times.insert(times.end(), caller->times.begin(), caller->times.end());
  std::nth_element(times.begin(), times.begin() + times.size() / 2, times.end());
  std::cout << requests / seconds << " " << times[times.size() / 2] << " " << read / seconds << std::endl;
}

int main(int argc, char** argv) {
  std::vector<std::string> words(argv + 1, argv + argc);
  try {
    if (words.size() == 2 && words[1] == "setup")
      setup(std::stoi(words[0]));
    else if (words.size() == 5 && SHARES.count(words[1]))
      run(std::stoi(words[0]), SHARES.at(words[1]), std::stoi(words[2]), std::stol(words[3]), std::stoi(words[4]));
    else
      return 2;
  } catch (const std::exception& fault) {
    std::cerr << "server_load: " << fault.what() << std::endl;
    return 1;
  }
}
