/* A client of the metastore by Apache Thrift's C++ library, over TCP.

   Generate its code, build it, start a server as README.md says, and run it:

       thrift --gen cpp:no_skeleton idl/metastore.thrift
       g++ -Igen-cpp -o client examples/client.cpp gen-cpp/ThriftHiveMetastore.cpp gen-cpp/metastore_types.cpp -lthrift
       ./client 9083

   It makes the database `lab` and a table in it, and prints the table's columns and the names of all databases. */
#include <thrift/protocol/TBinaryProtocol.h>
#include <thrift/transport/TBufferTransports.h>
#include <thrift/transport/TSocket.h>

#include <iostream>

#include "ThriftHiveMetastore.h"

using namespace Apache::Hadoop::Hive;
using namespace apache::thrift;

static Table plants() {
  FieldSchema column;
  column.__set_name("height");
  column.__set_type("int");
  StorageDescriptor storage;
  storage.__set_cols({column});
  Table table;
  table.__set_dbName("lab");
  table.__set_tableName("plants");
  table.__set_sd(storage);
  return table;
}

int main(int argc, char** argv) {
  if (argc != 2) {
    std::cerr << "usage: client PORT" << std::endl;
    return 2;
  }
  auto connection = std::make_shared<transport::TBufferedTransport>(std::make_shared<transport::TSocket>("127.0.0.1", std::stoi(argv[1])));
  ThriftHiveMetastoreClient client(std::make_shared<protocol::TBinaryProtocol>(connection));
  try {
    connection->open();
    Database lab;
    lab.__set_name("lab");
    client.create_database(lab);
    client.create_table(plants());
    std::vector<FieldSchema> columns;
    client.get_fields(columns, "lab", "plants");
    for (const FieldSchema& column : columns) std::cout << column.name << " " << column.type << std::endl;
    std::vector<std::string> names;
    client.get_all_databases(names);
    for (const std::string& name : names) std::cout << name << std::endl;
    connection->close();
  } catch (const TException& fault) {
    std::cerr << fault.what() << std::endl;
    return 1;
  }
}
