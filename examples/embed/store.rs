// A store over SQLite for what the library makes: the file that `csi-replay` has too. It declares what it calls of SQLite.
use crate::tufayon::*;
use std::ffi::{CString, c_char, c_int, c_void};
use std::ptr::null_mut;
unsafe extern "C" {
    fn sqlite3_open(name: *const c_char, db: *mut *mut c_void) -> c_int;
    fn sqlite3_exec(db: *mut c_void, sql: *const c_char, call: *mut c_void, data: *mut c_void, error: *mut *mut c_char) -> c_int;
    fn sqlite3_prepare_v2(db: *mut c_void, sql: *const c_char, size: c_int, made: *mut *mut c_void, rest: *mut *const c_char) -> c_int;
    fn sqlite3_bind_blob(it: *mut c_void, at: c_int, bytes: *const u8, size: c_int, free: isize) -> c_int;
    fn sqlite3_step(it: *mut c_void) -> c_int;
    fn sqlite3_reset(it: *mut c_void) -> c_int;
    fn sqlite3_column_blob(it: *mut c_void, at: c_int) -> *const u8;
    fn sqlite3_column_bytes(it: *mut c_void, at: c_int) -> c_int;
    fn sqlite3_finalize(it: *mut c_void) -> c_int;
    fn sqlite3_close(db: *mut c_void) -> c_int;
}
fn run(db: *mut c_void, sql: &str) {
    assert!(unsafe { sqlite3_exec(db, CString::new(sql).unwrap().as_ptr(), null_mut(), null_mut(), null_mut()) } == 0, "the store");
}

fn prepared(db: *mut c_void, sql: &str) -> *mut c_void {
    let mut made = null_mut();
    assert!(unsafe { sqlite3_prepare_v2(db, CString::new(sql).unwrap().as_ptr(), -1, &mut made, null_mut()) } == 0, "the store");
    made
}

// A database, and what changes it; and whether a transaction began since the last commit.
pub struct Store {
    db: *mut c_void,
    put_in: *mut c_void,
    take_out: *mut c_void,
    is_begun: bool,
}

pub fn open(name: &str) -> Store {
    let mut db = null_mut();
    assert!(unsafe { sqlite3_open(CString::new(name).unwrap().as_ptr(), &mut db) } == 0, "the store");
    run(db, "PRAGMA journal_mode = WAL; PRAGMA synchronous = FULL; CREATE TABLE IF NOT EXISTS parts (key BLOB NOT NULL PRIMARY KEY, value BLOB NOT NULL)");
    let put_in = prepared(db, "INSERT INTO parts (key, value) VALUES (?1, ?2) ON CONFLICT (key) DO UPDATE SET value = excluded.value");
    let take_out = prepared(db, "DELETE FROM parts WHERE key = ?1");
    Store { db, put_in, take_out, is_begun: false }
}

pub fn close(store: Store, mut plugin: Plugin) {
    unsafe { tufayon_free(&mut plugin); sqlite3_finalize(store.put_in); sqlite3_finalize(store.take_out); sqlite3_close(store.db) };
}

// The bytes of the record whose parts the store has, none where it has no part.
pub fn load(store: &Store) -> Vec<u8> {
    let (mut bytes, mut parts, all) = (vec![], 0u32, prepared(store.db, "SELECT key, value FROM parts ORDER BY key"));
    let column = |at| unsafe { std::slice::from_raw_parts(sqlite3_column_blob(all, at), sqlite3_column_bytes(all, at) as usize) };
    while unsafe { sqlite3_step(all) } == 100 {
        assert!(unsafe { sqlite3_column_bytes(all, 0) == 8 && sqlite3_column_bytes(all, 1) > 0 }, "no record");
        if parts == 0 { bytes = vec![column(1)[0], 0, 0, 0, 0] }
        parts += 1;
        bytes.extend([column(0), &(column(1).len() as u32).to_be_bytes(), column(1)].concat());
        bytes[1..5].copy_from_slice(&parts.to_be_bytes());
    }
    assert!(unsafe { sqlite3_finalize(all) } == 0, "the store"); // what the last step failed with: else half a record would seem to be all
    bytes
}

fn begin(store: &mut Store) {
    if !store.is_begun { run(store.db, "BEGIN") }
    store.is_begun = true;
}

// Ends the transaction, if there is one.
pub fn commit(store: &mut Store) {
    if store.is_begun { run(store.db, "COMMIT") }
    store.is_begun = false;
}

// Takes out all that the store has, as only a plugin wants it.
#[allow(dead_code)]
pub fn clear(store: &mut Store) {
    begin(store);
    run(store.db, "DELETE FROM parts");
}

// Puts what the last call changed into the transaction, behind what calls before it changed.
pub fn put_changes(store: &mut Store, plugin: &mut Plugin) {
    let (mut value, mut place, mut key, mut size) = (vec![0u8; 512], 0, 0u64, 0);
    loop {
        let ending = unsafe { tufayon_changed(plugin, place, &mut key, value.as_mut_ptr(), value.len(), &mut size) };
        let change = match ending {
            DONE => store.put_in,
            TAKE_OUT => store.take_out,
            NO_ROOM => { value.resize(size, 0); continue }
            NO_MORE => break,
            _ => panic!("out of memory"),
        };
        begin(store);
        place += 1;
        assert!(unsafe { sqlite3_bind_blob(change, 1, key.to_be_bytes().as_ptr(), 8, -1) } == 0, "the store");
        assert!(ending == TAKE_OUT || unsafe { sqlite3_bind_blob(change, 2, value.as_ptr(), size as c_int, -1) } == 0, "the store");
        assert!(unsafe { sqlite3_step(change) == 101 && sqlite3_reset(change) == 0 }, "the store");
    }
}
