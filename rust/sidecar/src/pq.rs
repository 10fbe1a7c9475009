//! A connection to PostgreSQL by libpq. No call waits longer than it is told.

use std::ffi::{c_char, c_int, c_void, CStr, CString};
use std::ptr;
use std::time::{Duration, Instant};

type Handle = *mut c_void;

#[repr(C)]
struct PollFd {
    fd: c_int,
    events: i16,
    revents: i16,
}

#[link(name = "pq")]
extern "C" {
    fn PQconnectdbParams(
        keys: *const *const c_char,
        values: *const *const c_char,
        expand: c_int,
    ) -> Handle;
    fn PQstatus(connection: Handle) -> c_int;
    fn PQfinish(connection: Handle);
    fn PQerrorMessage(connection: Handle) -> *const c_char;
    fn PQsocket(connection: Handle) -> c_int;
    fn PQsendQuery(connection: Handle, command: *const c_char) -> c_int;
    fn PQconsumeInput(connection: Handle) -> c_int;
    fn PQisBusy(connection: Handle) -> c_int;
    fn PQgetResult(connection: Handle) -> Handle;
    fn PQnotifies(connection: Handle) -> Handle;
    fn PQfreemem(memory: Handle);
    fn PQresultStatus(result: Handle) -> c_int;
    fn PQntuples(result: Handle) -> c_int;
    fn PQgetisnull(result: Handle, row: c_int, column: c_int) -> c_int;
    fn PQgetlength(result: Handle, row: c_int, column: c_int) -> c_int;
    fn PQgetvalue(result: Handle, row: c_int, column: c_int) -> *const c_char;
    fn PQclear(result: Handle);
}

extern "C" {
    fn poll(fds: *mut PollFd, count: u64, milliseconds: c_int) -> c_int;
}

const CONNECTED: c_int = 0;
const COMMAND_DONE: c_int = 1;
const ROWS: c_int = 2;
const READABLE: i16 = 1;

/// An open connection.
pub struct Connection(Handle);

// SAFETY: libpq lets a connection be used from any thread, one at a time; `&self` calls are made by its owner alone, since it is
// not `Sync`.
unsafe impl Send for Connection {}

impl Connection {
    /// Connects; `settings` is libpq's string or URI, which may name TLS, certificates and timeouts.
    pub fn open(settings: &str) -> Result<Connection, String> {
        let settings = CString::new(settings).map_err(|_| "a NUL in the settings".to_string())?;
        // those before `dbname` are only taken where the settings do not name them
        let keys = [c"connect_timeout", c"application_name", c"dbname"];
        let values = [c"10", c"balsa-sidecar", settings.as_c_str()];
        let listed = |words: [&CStr; 3]| {
            [
                words[0].as_ptr(),
                words[1].as_ptr(),
                words[2].as_ptr(),
                ptr::null(),
            ]
        };
        // SAFETY: two lists of strings of equal length that end with a null, alive for the call.
        let handle =
            unsafe { PQconnectdbParams(listed(keys).as_ptr(), listed(values).as_ptr(), 1) };
        let connection = Connection(handle);
        // SAFETY: the handle is libpq's, null or open until it is dropped; so for the calls below.
        match unsafe { PQstatus(connection.0) } {
            CONNECTED => Ok(connection),
            _ => Err(connection.words()),
        }
    }

    fn words(&self) -> String {
        // SAFETY: as in `open`; the words are a string that lives until the next call.
        let words = unsafe { CStr::from_ptr(PQerrorMessage(self.0)) };
        words.to_string_lossy().trim().replace('\n', " ")
    }

    /// Waits until something is there to be read, for at most a time; whether it is.
    pub fn wait(&self, time: Duration) -> Result<bool, String> {
        let mut fds = PollFd {
            // SAFETY: as in `open`.
            fd: unsafe { PQsocket(self.0) },
            events: READABLE,
            revents: 0,
        };
        let milliseconds = c_int::try_from(time.as_millis()).unwrap_or(c_int::MAX);
        // SAFETY: one descriptor, alive for the call.
        if unsafe { poll(&mut fds, 1, milliseconds) } <= 0 {
            return Ok(false);
        }
        // SAFETY: as in `open`.
        match unsafe { PQconsumeInput(self.0) } {
            1 => Ok(true),
            _ => Err(self.words()),
        }
    }

    /// Runs one command and hands back its rows.
    pub fn run(&self, command: &str, within: Duration) -> Result<Rows, String> {
        let command = CString::new(command).map_err(|_| "a NUL in a command".to_string())?;
        let started = Instant::now();
        // SAFETY: as in `open`; the command is a string, alive for the call.
        if unsafe { PQsendQuery(self.0, command.as_ptr()) } != 1 {
            return Err(self.words());
        }
        // SAFETY: as in `open`.
        while unsafe { PQisBusy(self.0) } == 1 {
            let left = within.saturating_sub(started.elapsed());
            if left.is_zero() {
                return Err(format!("no answer within {} ms", within.as_millis()));
            }
            self.wait(left)?;
        }
        // SAFETY: as in `open`; results are handed out until null, and each is cleared when it is dropped.
        let rows = Rows(unsafe { PQgetResult(self.0) });
        while !Rows(unsafe { PQgetResult(self.0) }).0.is_null() {}
        // SAFETY: a result, or null, which counts as failed.
        match unsafe { PQresultStatus(rows.0) } {
            COMMAND_DONE | ROWS => Ok(rows),
            _ => Err(self.words()),
        }
    }

    /// Takes the notices that have come.
    pub fn take_notices(&self) {
        loop {
            // SAFETY: as in `open`; each notice is handed out once and freed.
            let notice = unsafe { PQnotifies(self.0) };
            if notice.is_null() {
                return;
            }
            unsafe { PQfreemem(notice) };
        }
    }
}

impl Drop for Connection {
    fn drop(&mut self) {
        // SAFETY: the handle is not used afterwards.
        unsafe { PQfinish(self.0) }
    }
}

/// The rows that a command handed back.
pub struct Rows(Handle);

impl Rows {
    /// How many there are.
    pub fn len(&self) -> usize {
        // SAFETY: the result lives as long as `self`.
        unsafe { PQntuples(self.0) as usize }
    }

    /// The bytes of a cell, or none where it is null. A cell that is not there is null.
    pub fn cell(&self, row: usize, column: usize) -> Option<&[u8]> {
        let (row, column) = (row as c_int, column as c_int);
        // SAFETY: as in `len`; libpq answers "null" outside the table, and the bytes live as long as the result.
        unsafe {
            if PQgetisnull(self.0, row, column) == 1 {
                return None;
            }
            let length = PQgetlength(self.0, row, column) as usize;
            Some(std::slice::from_raw_parts(
                PQgetvalue(self.0, row, column).cast(),
                length,
            ))
        }
    }

    /// The number in a cell.
    pub fn number(&self, row: usize, column: usize) -> Option<u64> {
        std::str::from_utf8(self.cell(row, column)?)
            .ok()?
            .parse()
            .ok()
    }
}

impl Drop for Rows {
    fn drop(&mut self) {
        // SAFETY: the result is not used afterwards; null is allowed.
        unsafe { PQclear(self.0) }
    }
}
