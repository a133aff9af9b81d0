//! What a user might pick instead: LMDB and SQLite from the system's packages, loaded at run time by hand-written declarations; a
//! library that is not there is left out. Both hold the newest row of each key, and are asked the way their own manuals recommend: one
//! read transaction, or one prepared statement, for all lookups.

use std::ffi::{CStr, CString, c_char, c_int, c_uint, c_void};
use std::path::PathBuf;
use std::ptr::{null, null_mut};

unsafe extern "C" {
    fn dlopen(file: *const c_char, flags: c_int) -> *mut c_void;
    fn dlsym(lib: *mut c_void, name: *const c_char) -> *mut c_void;
}

const RTLD_NOW: c_int = 2;

/// A shared library that stays open.
struct Library(*mut c_void);

impl Library {
    fn open(names: &[&CStr]) -> Option<Self> {
        // SAFETY: the names end with a zero byte.
        names
            .iter()
            .map(|n| unsafe { dlopen(n.as_ptr(), RTLD_NOW) })
            .find(|l| !l.is_null())
            .map(Library)
    }

    /// A function of the library, of the type that the caller names; the types below are those of lmdb.h and sqlite3.h.
    fn get<F: Copy>(&self, name: &CStr) -> F {
        // SAFETY: the library is open and the name ends with a zero byte; the type is checked above all by every answer being compared.
        let f = unsafe { dlsym(self.0, name.as_ptr()) };
        assert!(!f.is_null() && size_of::<F>() == size_of::<*mut c_void>(), "{name:?} is missing");
        unsafe { std::mem::transmute_copy(&f) }
    }
}

fn must(code: c_int, what: &str) {
    assert_eq!(code, 0, "{what}");
}

// ---- LMDB

#[repr(C)]
struct MdbVal {
    size: usize,
    data: *const c_void,
}

impl MdbVal {
    fn of(bytes: &[u8]) -> Self {
        MdbVal { size: bytes.len(), data: bytes.as_ptr().cast() }
    }
}

type Env = *mut c_void;
type Txn = *mut c_void;

/// A database in a file of its own in the temporary folder, with a read transaction open.
pub struct Lmdb {
    get: unsafe extern "C" fn(Txn, c_uint, *mut MdbVal, *mut MdbVal) -> c_int,
    txn: Txn,
    dbi: c_uint,
    file: PathBuf,
    pub version: String,
}

const MDB_NOSUBDIR: c_uint = 0x4000;
const MDB_NOSYNC: c_uint = 0x10000;
const MDB_NOLOCK: c_uint = 0x40_0000;
const MDB_RDONLY: c_uint = 0x20000;
const MDB_APPEND: c_uint = 0x20000;

impl Lmdb {
    pub fn open<'a>(rows: impl Iterator<Item = (&'a [u8], &'a [u8])>) -> Option<Self> {
        let lib = Library::open(&[c"liblmdb.so.0", c"liblmdb.so"])?;
        let create: unsafe extern "C" fn(*mut Env) -> c_int = lib.get(c"mdb_env_create");
        let set_size: unsafe extern "C" fn(Env, usize) -> c_int = lib.get(c"mdb_env_set_mapsize");
        let open: unsafe extern "C" fn(Env, *const c_char, c_uint, c_uint) -> c_int =
            lib.get(c"mdb_env_open");
        let begin: unsafe extern "C" fn(Env, Txn, c_uint, *mut Txn) -> c_int =
            lib.get(c"mdb_txn_begin");
        let commit: unsafe extern "C" fn(Txn) -> c_int = lib.get(c"mdb_txn_commit");
        let dbi_open: unsafe extern "C" fn(Txn, *const c_char, c_uint, *mut c_uint) -> c_int =
            lib.get(c"mdb_dbi_open");
        let put: unsafe extern "C" fn(Txn, c_uint, *mut MdbVal, *mut MdbVal, c_uint) -> c_int =
            lib.get(c"mdb_put");
        let version: unsafe extern "C" fn(*mut c_int, *mut c_int, *mut c_int) -> *const c_char =
            lib.get(c"mdb_version");
        let file =
            std::env::temp_dir().join(format!("cresttrestle-bench-{}.lmdb", std::process::id()));
        let name = CString::new(file.to_str()?).ok()?;
        let (mut env, mut txn, mut dbi) = (null_mut(), null_mut(), 0);
        // SAFETY: every pointer is to a living place of the type that lmdb.h asks for.
        unsafe {
            must(create(&mut env), "mdb_env_create");
            must(set_size(env, 64 << 20), "mdb_env_set_mapsize");
            must(
                open(env, name.as_ptr(), MDB_NOSUBDIR | MDB_NOSYNC | MDB_NOLOCK, 0o600),
                "mdb_env_open",
            );
            must(begin(env, null_mut(), 0, &mut txn), "mdb_txn_begin");
            must(dbi_open(txn, null(), 0, &mut dbi), "mdb_dbi_open");
            for (key, value) in rows {
                must(
                    put(txn, dbi, &mut MdbVal::of(key), &mut MdbVal::of(value), MDB_APPEND),
                    "mdb_put",
                );
            }
            must(commit(txn), "mdb_txn_commit");
            must(begin(env, null_mut(), MDB_RDONLY, &mut txn), "mdb_txn_begin");
            let said =
                CStr::from_ptr(version(null_mut(), null_mut(), null_mut())).to_string_lossy();
            let version = said.split(':').next().unwrap_or_default().to_string();
            Some(Lmdb { get: lib.get(c"mdb_get"), txn, dbi, file, version })
        }
    }

    /// The first eight bytes of the key's value as a number.
    #[inline]
    pub fn lookup(&self, key: &[u8]) -> u64 {
        let mut value = MdbVal { size: 0, data: null() };
        // SAFETY: the transaction is open; the value lies in the map while it is.
        unsafe {
            must((self.get)(self.txn, self.dbi, &mut MdbVal::of(key), &mut value), "mdb_get");
            value.data.cast::<u64>().read_unaligned()
        }
    }
}

impl Drop for Lmdb {
    fn drop(&mut self) {
        // The transaction and the map go with the process; the file must not stay behind.
        let _ = std::fs::remove_file(&self.file);
    }
}

// ---- SQLite

type Db = *mut c_void;
type Stmt = *mut c_void;

/// A database in memory with one prepared lookup.
pub struct Sqlite {
    bind: BindBlob,
    step: unsafe extern "C" fn(Stmt) -> c_int,
    column: unsafe extern "C" fn(Stmt, c_int) -> *const c_void,
    reset: unsafe extern "C" fn(Stmt) -> c_int,
    stmt: Stmt,
    pub version: String,
}

type BindBlob = unsafe extern "C" fn(Stmt, c_int, *const c_void, c_int, *const c_void) -> c_int;

const SQLITE_ROW: c_int = 100;
const SQLITE_DONE: c_int = 101;

impl Sqlite {
    pub fn open<'a>(rows: impl Iterator<Item = (&'a [u8], &'a [u8])>) -> Option<Self> {
        let lib = Library::open(&[c"libsqlite3.so.0", c"libsqlite3.so"])?;
        let open: unsafe extern "C" fn(*const c_char, *mut Db) -> c_int = lib.get(c"sqlite3_open");
        let exec: unsafe extern "C" fn(
            Db,
            *const c_char,
            *const c_void,
            *const c_void,
            *const c_void,
        ) -> c_int = lib.get(c"sqlite3_exec");
        let prepare: unsafe extern "C" fn(
            Db,
            *const c_char,
            c_int,
            *mut Stmt,
            *const c_void,
        ) -> c_int = lib.get(c"sqlite3_prepare_v2");
        let version: unsafe extern "C" fn() -> *const c_char = lib.get(c"sqlite3_libversion");
        let (bind, step): (BindBlob, unsafe extern "C" fn(Stmt) -> c_int) =
            (lib.get(c"sqlite3_bind_blob"), lib.get(c"sqlite3_step"));
        let reset: unsafe extern "C" fn(Stmt) -> c_int = lib.get(c"sqlite3_reset");
        let (mut db, mut insert, mut select) = (null_mut(), null_mut(), null_mut());
        // SAFETY: every pointer is to a living place of the type that sqlite3.h asks for; bound bytes outlive their step.
        unsafe {
            must(open(c":memory:".as_ptr(), &mut db), "sqlite3_open");
            must(
                exec(
                    db,
                    c"create table t (k blob primary key, v blob) without rowid; begin".as_ptr(),
                    null(),
                    null(),
                    null(),
                ),
                "create",
            );
            must(
                prepare(db, c"insert into t values (?1, ?2)".as_ptr(), -1, &mut insert, null()),
                "insert",
            );
            for (key, value) in rows {
                must(bind(insert, 1, key.as_ptr().cast(), key.len() as c_int, null()), "bind");
                must(bind(insert, 2, value.as_ptr().cast(), value.len() as c_int, null()), "bind");
                assert_eq!(step(insert), SQLITE_DONE, "insert");
                must(reset(insert), "reset");
            }
            must(exec(db, c"commit".as_ptr(), null(), null(), null()), "commit");
            must(
                prepare(db, c"select v from t where k = ?1".as_ptr(), -1, &mut select, null()),
                "select",
            );
            let version = CStr::from_ptr(version()).to_string_lossy().into_owned();
            Some(Sqlite {
                bind,
                step,
                column: lib.get(c"sqlite3_column_blob"),
                reset,
                stmt: select,
                version: format!("SQLite {version}"),
            })
        }
    }

    /// The first eight bytes of the key's value as a number.
    #[inline]
    pub fn lookup(&self, key: &[u8]) -> u64 {
        // SAFETY: the key outlives the step; the column lives until the reset.
        unsafe {
            must(
                (self.bind)(self.stmt, 1, key.as_ptr().cast(), key.len() as c_int, null()),
                "bind",
            );
            assert_eq!((self.step)(self.stmt), SQLITE_ROW, "select");
            let n = (self.column)(self.stmt, 0).cast::<u64>().read_unaligned();
            must((self.reset)(self.stmt), "reset");
            n
        }
    }
}
