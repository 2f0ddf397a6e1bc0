/*
 * The calls of the metastore that are built, with their structs. Clients in any language are
 * generated from this file, as by `thrift --gen py idl/metastore.thrift`; they speak Thrift's
 * binary protocol without frames. The service, its calls and its structs have the names that they
 * have in Apache Hive's own file, so that clients look as their users know them. docs/CALLS.md says
 * what each call does.
 */
namespace py hive_metastore
namespace java org.apache.hadoop.hive.metastore.api
namespace cpp Apache.Hadoop.Hive

/** A database. Fields that aren't listed here are skipped. */
struct Database {
  1: optional string name,
  2: optional string description,
  3: optional string locationUri,
  4: optional map<string, string> parameters,
  6: optional string ownerName
}

/** A column, or a key by which a table is partitioned. An absent name or type counts as empty. */
struct FieldSchema {
  1: string name,
  2: string type,
  3: optional string comment
}

/** How the rows of a table are read and written. */
struct SerDeInfo {
  1: optional string name,
  2: optional string serializationLib,
  3: map<string, string> parameters
}

/** A column by which rows are sorted, and the direction. */
struct Order {
  1: string col,
  2: i32 order
}

/** Values that so many rows have that they lie in places of their own. */
struct SkewedInfo {
  1: list<string> skewedColNames,
  2: list<list<string>> skewedColValues,
  3: map<list<string> (python.immutable = ""), string> skewedColValueLocationMaps
}

/** How the rows of a table are stored. Lists and maps that are absent count as empty. */
struct StorageDescriptor {
  1: list<FieldSchema> cols,
  2: optional string location,
  3: optional string inputFormat,
  4: optional string outputFormat,
  5: bool compressed,
  6: i32 numBuckets,
  7: optional SerDeInfo serdeInfo,
  8: list<string> bucketCols,
  9: list<Order> sortCols,
  10: map<string, string> parameters,
  11: optional SkewedInfo skewedInfo,
  12: optional bool storedAsSubDirectories
}

/** A table. Fields that aren't listed here are skipped. */
struct Table {
  1: optional string tableName,
  2: optional string dbName,
  3: optional string owner,
  4: i32 createTime,
  5: i32 lastAccessTime,
  6: i32 retention,
  7: optional StorageDescriptor sd,
  8: list<FieldSchema> partitionKeys,
  9: map<string, string> parameters,
  10: optional string viewOriginalText,
  11: optional string viewExpandedText,
  12: optional string tableType
}

/** A partition: the values of its table's keys, and what is kept of it. */
struct Partition {
  1: list<string> values,
  2: string dbName,
  3: string tableName,
  4: i32 createTime,
  5: i32 lastAccessTime,
  6: StorageDescriptor sd,
  7: map<string, string> parameters
}

/** An absent ifNotExists is false, an absent needResult true. */
struct AddPartitionsRequest {
  1: string dbName,
  2: string tblName,
  3: list<Partition> parts,
  4: bool ifNotExists,
  5: optional bool needResult = true
}

struct AddPartitionsResult {
  1: optional list<Partition> partitions
}

/** Statistics of a column of flags. */
struct BooleanColumnStatsData {
  1: i64 numTrues,
  2: i64 numFalses,
  3: i64 numNulls
}

/** Statistics of a column of whole numbers. */
struct LongColumnStatsData {
  1: optional i64 lowValue,
  2: optional i64 highValue,
  3: i64 numNulls,
  4: i64 numDVs
}

/** Statistics of a column of texts. */
struct StringColumnStatsData {
  1: i64 maxColLen,
  2: double avgColLen,
  3: i64 numNulls,
  4: i64 numDVs
}

/** The last one that is there counts. Hive has a union here; it is written and read alike. */
struct ColumnStatisticsData {
  1: optional BooleanColumnStatsData booleanStats,
  2: optional LongColumnStatsData longStats,
  4: optional StringColumnStatsData stringStats
}

/** Statistics of a column. The type is read and not used; it is written as the table's column has it. */
struct ColumnStatisticsObj {
  1: optional string colName,
  2: optional string colType,
  3: optional ColumnStatisticsData statsData
}

/** Of what statistics are: of a table, or of one of its partitions. */
struct ColumnStatisticsDesc {
  1: bool isTblLevel,
  2: optional string dbName,
  3: optional string tableName,
  4: optional string partName,
  5: optional i64 lastAnalyzed
}

struct ColumnStatistics {
  1: optional ColumnStatisticsDesc statsDesc,
  2: list<ColumnStatisticsObj> statsObj
}

struct TableStatsRequest {
  1: optional string dbName,
  2: optional string tblName,
  3: list<string> colNames
}

struct TableStatsResult {
  1: list<ColumnStatisticsObj> tableStats
}

/** Read, and not used. */
struct EnvironmentContext {
  1: map<string, string> properties
}

struct GetTableRequest {
  1: optional string dbName,
  2: optional string tblName
}

struct GetTableResult {
  1: Table table
}

/** No functions are kept. */
struct GetAllFunctionsResponse {
}

/** Asks for the events above the number lastEvent; all of them where maxEvents is absent, 0 or negative. */
struct NotificationEventRequest {
  1: i64 lastEvent,
  2: optional i32 maxEvents
}

/** An event; its message is JSON. */
struct NotificationEvent {
  1: i64 eventId,
  2: i32 eventTime,
  3: string eventType,
  4: string dbName,
  5: optional string tableName,
  6: string message,
  7: string messageFormat
}

struct NotificationEventResponse {
  1: list<NotificationEvent> events
}

struct CurrentNotificationEventId {
  1: i64 eventId
}

/** The folder that a dump wrote, by its name in the folder of dumps, and the event up to which it goes. */
struct ReplDumpResult {
  1: string dumpDir,
  2: i64 lastEvent
}

exception AlreadyExistsException {
  1: string message
}

exception NoSuchObjectException {
  1: string message
}

exception InvalidObjectException {
  1: string message
}

exception InvalidOperationException {
  1: string message
}

exception InvalidInputException {
  1: string message
}

exception MetaException {
  1: string message
}

service ThriftHiveMetastore {
  string getName(),

  /** 2: the server is alive. */
  i32 getStatus(),

  /** Ends this connection; there is no reply. */
  oneway void shutdown(),

  list<string> set_ugi(1: string user_name, 2: list<string> group_names)
    throws (1: MetaException o1),

  GetAllFunctionsResponse get_all_functions()
    throws (1: MetaException o1),

  void create_database(1: Database database)
    throws (1: AlreadyExistsException o1, 2: InvalidObjectException o2, 3: MetaException o3),

  Database get_database(1: string name)
    throws (1: NoSuchObjectException o1, 2: MetaException o2),

  /** No files are touched; with `cascade` the tables go too. */
  void drop_database(1: string name, 2: bool deleteData, 3: bool cascade)
    throws (1: NoSuchObjectException o1, 2: InvalidOperationException o2, 3: MetaException o3),

  /** The names that fit a pattern: `|` parts alternatives, `*` is any run of characters, `.` is any one. */
  list<string> get_databases(1: string pattern)
    throws (1: MetaException o1),

  list<string> get_all_databases()
    throws (1: MetaException o1),

  void alter_database(1: string dbname, 2: Database db)
    throws (1: MetaException o1, 2: NoSuchObjectException o2),

  void create_table(1: Table tbl)
    throws (1: AlreadyExistsException o1, 2: InvalidObjectException o2, 3: MetaException o3, 4: NoSuchObjectException o4),

  void create_table_with_environment_context(1: Table tbl, 2: EnvironmentContext environment_context)
    throws (1: AlreadyExistsException o1, 2: InvalidObjectException o2, 3: MetaException o3, 4: NoSuchObjectException o4),

  /** No files are touched. */
  void drop_table(1: string dbname, 2: string name, 3: bool deleteData)
    throws (1: NoSuchObjectException o1, 2: MetaException o2),

  void drop_table_with_environment_context(1: string dbname, 2: string name, 3: bool deleteData,
      4: EnvironmentContext environment_context)
    throws (1: NoSuchObjectException o1, 2: MetaException o2),

  /** The names that fit a pattern; none where there is no such database. */
  list<string> get_tables(1: string db_name, 2: string pattern)
    throws (1: MetaException o1),

  list<string> get_all_tables(1: string db_name)
    throws (1: MetaException o1),

  Table get_table(1: string dbname, 2: string tbl_name)
    throws (1: MetaException o1, 2: NoSuchObjectException o2),

  GetTableResult get_table_req(1: GetTableRequest req)
    throws (1: MetaException o1, 2: NoSuchObjectException o2),

  /** Those that there are, in the order of first asking. */
  list<Table> get_table_objects_by_name(1: string dbname, 2: list<string> tbl_names)
    throws (1: MetaException o1),

  void alter_table(1: string dbname, 2: string tbl_name, 3: Table new_tbl)
    throws (1: InvalidOperationException o1, 2: MetaException o2),

  void alter_table_with_environment_context(1: string dbname, 2: string tbl_name, 3: Table new_tbl,
      4: EnvironmentContext environment_context)
    throws (1: InvalidOperationException o1, 2: MetaException o2),

  /** The columns of a table. */
  list<FieldSchema> get_fields(1: string db_name, 2: string table_name)
    throws (1: MetaException o1),

  /** The columns of a table, and behind them its keys. */
  list<FieldSchema> get_schema(1: string db_name, 2: string table_name)
    throws (1: MetaException o1),

  Partition add_partition(1: Partition new_part)
    throws (1: InvalidObjectException o1, 2: AlreadyExistsException o2, 3: MetaException o3),

  Partition add_partition_with_environment_context(1: Partition new_part,
      2: EnvironmentContext environment_context)
    throws (1: InvalidObjectException o1, 2: AlreadyExistsException o2, 3: MetaException o3),

  /** All of them to one table; how many were added. */
  i32 add_partitions(1: list<Partition> new_parts)
    throws (1: InvalidObjectException o1, 2: AlreadyExistsException o2, 3: MetaException o3),

  AddPartitionsResult add_partitions_req(1: AddPartitionsRequest request)
    throws (1: InvalidObjectException o1, 2: AlreadyExistsException o2, 3: MetaException o3),

  Partition append_partition(1: string db_name, 2: string tbl_name, 3: list<string> part_vals)
    throws (1: InvalidObjectException o1, 2: AlreadyExistsException o2, 3: MetaException o3),

  Partition append_partition_by_name(1: string db_name, 2: string tbl_name, 3: string part_name)
    throws (1: InvalidObjectException o1, 2: AlreadyExistsException o2, 3: MetaException o3),

  /** No files are touched. */
  bool drop_partition(1: string db_name, 2: string tbl_name, 3: list<string> part_vals, 4: bool deleteData)
    throws (1: NoSuchObjectException o1, 2: MetaException o2),

  bool drop_partition_with_environment_context(1: string db_name, 2: string tbl_name, 3: list<string> part_vals,
      4: bool deleteData, 5: EnvironmentContext environment_context)
    throws (1: NoSuchObjectException o1, 2: MetaException o2),

  bool drop_partition_by_name(1: string db_name, 2: string tbl_name, 3: string part_name, 4: bool deleteData)
    throws (1: NoSuchObjectException o1, 2: MetaException o2),

  Partition get_partition(1: string db_name, 2: string tbl_name, 3: list<string> part_vals)
    throws (1: MetaException o1, 2: NoSuchObjectException o2),

  Partition get_partition_by_name(1: string db_name, 2: string tbl_name, 3: string part_name)
    throws (1: MetaException o1, 2: NoSuchObjectException o2),

  /** The first ones; all where max_parts is negative. */
  list<Partition> get_partitions(1: string db_name, 2: string tbl_name, 3: i16 max_parts = -1)
    throws (1: NoSuchObjectException o1, 2: MetaException o2),

  list<string> get_partition_names(1: string db_name, 2: string tbl_name, 3: i16 max_parts = -1)
    throws (1: NoSuchObjectException o1, 2: MetaException o2),

  /** Those whose values begin so; an empty text stands for any value. */
  list<Partition> get_partitions_ps(1: string db_name, 2: string tbl_name, 3: list<string> part_vals,
      4: i16 max_parts = -1)
    throws (1: MetaException o1, 2: NoSuchObjectException o2),

  list<string> get_partition_names_ps(1: string db_name, 2: string tbl_name, 3: list<string> part_vals,
      4: i16 max_parts = -1)
    throws (1: MetaException o1, 2: NoSuchObjectException o2),

  /** Those for which the filter holds; all where it is empty. */
  list<Partition> get_partitions_by_filter(1: string db_name, 2: string tbl_name, 3: string filter,
      4: i16 max_parts = -1)
    throws (1: MetaException o1, 2: NoSuchObjectException o2),

  i32 get_num_partitions_by_filter(1: string db_name, 2: string tbl_name, 3: string filter)
    throws (1: MetaException o1, 2: NoSuchObjectException o2),

  /** Those that there are, each once. */
  list<Partition> get_partitions_by_names(1: string db_name, 2: string tbl_name, 3: list<string> names)
    throws (1: MetaException o1, 2: NoSuchObjectException o2),

  void alter_partition(1: string db_name, 2: string tbl_name, 3: Partition new_part)
    throws (1: InvalidOperationException o1, 2: MetaException o2),

  void alter_partition_with_environment_context(1: string db_name, 2: string tbl_name, 3: Partition new_part,
      4: EnvironmentContext environment_context)
    throws (1: InvalidOperationException o1, 2: MetaException o2),

  void alter_partitions(1: string db_name, 2: string tbl_name, 3: list<Partition> new_parts)
    throws (1: InvalidOperationException o1, 2: MetaException o2),

  void rename_partition(1: string db_name, 2: string tbl_name, 3: list<string> part_vals, 4: Partition new_part)
    throws (1: InvalidOperationException o1, 2: MetaException o2),

  bool update_table_column_statistics(1: ColumnStatistics stats_obj)
    throws (1: NoSuchObjectException o1, 2: InvalidObjectException o2, 3: MetaException o3, 4: InvalidInputException o4),

  bool update_partition_column_statistics(1: ColumnStatistics stats_obj)
    throws (1: NoSuchObjectException o1, 2: InvalidObjectException o2, 3: MetaException o3, 4: InvalidInputException o4),

  ColumnStatistics get_table_column_statistics(1: string db_name, 2: string tbl_name, 3: string col_name)
    throws (1: NoSuchObjectException o1, 2: MetaException o2, 3: InvalidInputException o3, 4: InvalidObjectException o4),

  ColumnStatistics get_partition_column_statistics(1: string db_name, 2: string tbl_name, 3: string part_name,
      4: string col_name)
    throws (1: NoSuchObjectException o1, 2: MetaException o2, 3: InvalidInputException o3, 4: InvalidObjectException o4),

  /** Those of all columns where col_name is absent. */
  bool delete_table_column_statistics(1: string db_name, 2: string tbl_name, 3: string col_name)
    throws (1: NoSuchObjectException o1, 2: MetaException o2, 3: InvalidObjectException o3, 4: InvalidInputException o4),

  bool delete_partition_column_statistics(1: string db_name, 2: string tbl_name, 3: string part_name,
      4: string col_name)
    throws (1: NoSuchObjectException o1, 2: MetaException o2, 3: InvalidObjectException o3, 4: InvalidInputException o4),

  /** Of the columns that have some, in the order of first asking. */
  TableStatsResult get_table_statistics_req(1: TableStatsRequest request)
    throws (1: NoSuchObjectException o1, 2: MetaException o2),

  /** Whether all values are valid. */
  bool partition_name_has_valid_characters(1: list<string> part_vals, 2: bool throw_exception)
    throws (1: MetaException o1),

  list<string> partition_name_to_vals(1: string part_name)
    throws (1: MetaException o1),

  map<string, string> partition_name_to_spec(1: string part_name)
    throws (1: MetaException o1),

  NotificationEventResponse get_next_notification(1: NotificationEventRequest rqst)
    throws (1: MetaException o1),

  CurrentNotificationEventId get_current_notificationEventId()
    throws (1: MetaException o1),

  /**
   * Dumps a database for a replica: all of it, or the events after fromEvent where that is there; these
   * up to toEvent, and those of the next maxEvents numbers at most. All but dbName may be left out.
   */
  ReplDumpResult repl_dump(1: string dbName, 2: i64 fromEvent, 3: i64 toEvent, 4: i32 maxEvents)
    throws (1: MetaException o1, 2: NoSuchObjectException o2),

  /** Takes off the kept events up to a number, but for those that an open dump needs; the first kept number. */
  i64 trim_events(1: i64 upTo)
    throws (1: MetaException o1)
}
