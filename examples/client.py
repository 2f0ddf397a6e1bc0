"""A client of the metastore by Apache Thrift's Python library, over TCP.

Generate its code with `thrift --gen py idl/metastore.thrift`, start a server as README.md says, and run
`PYTHONPATH=gen-py python3 examples/client.py 9083`. It makes the database `shop` and prints the names of all.
"""
import sys

from hive_metastore import ThriftHiveMetastore
from hive_metastore.ttypes import Database
from thrift.protocol.TBinaryProtocol import TBinaryProtocol
from thrift.transport.TSocket import TSocket
from thrift.transport.TTransport import TBufferedTransport

connection = TBufferedTransport(TSocket("127.0.0.1", int(sys.argv[1])))
connection.open()
client = ThriftHiveMetastore.Client(TBinaryProtocol(connection))
client.create_database(Database(name="shop"))
print(client.get_all_databases())
connection.close()
