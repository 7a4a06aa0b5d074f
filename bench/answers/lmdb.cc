// The queries of `ours` by LMDB, over the rows that a compacted store has: one for each key, with its folded value.
//
//     lmdb answers|hot|deleted FILE
//
// It reads the rows in the order of their keys from standard input, as `baseline rows` writes them, puts them into a new database
// FILE, one behind the other, and answers in one transaction that stays open: lookups by `mdb_get`, scans by one cursor. The
// answers own their texts. Then it prints the same line as `ours`, with one run and a point for each row. Nothing is
// synchronized to a disk (MDB_NOSYNC, MDB_NOMETASYNC), and what is written is written in place (MDB_WRITEMAP), so FILE should be
// in memory, as in /dev/shm.

#include <lmdb.h>

#include "workloads.h"

namespace {

using namespace counters;

// How large a database may be.
const size_t kMap = 1 << 30;

void Expect(int status, const char* what) {
  if (status != MDB_SUCCESS) Fail(what + (std::string(": ") + mdb_strerror(status)));
}

MDB_env* EnvIn(const char* file) {
  MDB_env* env = nullptr;
  Expect(mdb_env_create(&env), "create");
  Expect(mdb_env_set_mapsize(env, kMap), "size");
  Expect(mdb_env_open(env, file, MDB_NOSUBDIR | MDB_WRITEMAP | MDB_NOSYNC | MDB_NOMETASYNC, 0600), "open");
  return env;
}

// Reads a text behind its length, of 4 bytes, low byte first; false where standard input ends before it.
bool ReadText(std::string* text) {
  unsigned char length[4];
  if (std::fread(length, 1, 4, stdin) != 4) return false;
  text->resize(length[0] | length[1] << 8 | length[2] << 16 | static_cast<size_t>(length[3]) << 24);
  if (std::fread(text->data(), 1, text->size(), stdin) != text->size()) Fail("the rows end early");
  return true;
}

MDB_val ValOf(const std::string& text) { return {text.size(), const_cast<char*>(text.data())}; }

std::string TextOf(const MDB_val& val) { return std::string(static_cast<const char*>(val.mv_data), val.mv_size); }

// Puts the rows of standard input into the database, and says how many there are.
uint64_t PutRows(MDB_env* env, MDB_dbi* rows) {
  MDB_txn* txn = nullptr;
  Expect(mdb_txn_begin(env, nullptr, 0, &txn), "begin");
  Expect(mdb_dbi_open(txn, nullptr, 0, rows), "open the rows");
  uint64_t count = 0;
  for (std::string key, value; ReadText(&key); count++) {
    if (!ReadText(&value)) Fail("a key without a value");
    MDB_val key_val = ValOf(key);
    MDB_val value_val = ValOf(value);
    Expect(mdb_put(txn, *rows, &key_val, &value_val, MDB_APPEND), "put");
  }
  Expect(mdb_txn_commit(txn), "commit");
  return count;
}

struct Reader {
  MDB_txn* txn;
  MDB_dbi rows;
  MDB_cursor* cursor;

  Answer operator()(const Get& get) const {
    MDB_val key = ValOf(get.key);
    MDB_val value;
    int status = mdb_get(txn, rows, &key, &value);
    if (status == MDB_NOTFOUND) return Value();
    Expect(status, "get");
    return Value(TextOf(value));
  }

  Answer operator()(const Scan& scan) const {
    Rows found;
    MDB_val key = ValOf(scan.low);
    MDB_val value;
    int status = mdb_cursor_get(cursor, &key, &value, MDB_SET_RANGE);
    while (status == MDB_SUCCESS && found.size() < scan.limit) {
      found.emplace_back(TextOf(key), TextOf(value));
      status = mdb_cursor_get(cursor, &key, &value, MDB_NEXT);
    }
    if (status != MDB_NOTFOUND) Expect(status, "scan");
    return found;
  }
};

}  // namespace

int main(int count, char** words) {
  if (count != 3) Fail("say a workload and a file");
  MDB_env* env = EnvIn(words[2]);
  Reader reader;
  uint64_t points = PutRows(env, &reader.rows);
  Expect(mdb_txn_begin(env, nullptr, MDB_RDONLY, &reader.txn), "begin to read");
  Expect(mdb_cursor_open(reader.txn, reader.rows, &reader.cursor), "open a cursor");
  Measure(reader, words[1], 1, points);
  mdb_cursor_close(reader.cursor);
  mdb_txn_abort(reader.txn);
  mdb_env_close(env);
  return 0;
}
