//! A host in Rust with `std` alone: connects to a port of this machine and prints what comes.
use std::os::raw::c_int;

#[repr(C)]
struct Setup { keep_log: u32, anywhere: u32, most_asks: u32, bad_line: u32 }
#[repr(C)]
struct Context { may: u32, write_limit: u64 }
#[repr(C)]
struct Opaque { _private: [u8; 0] }
#[repr(C)]
#[derive(Clone, Copy)]
struct PollFd { fd: c_int, events: i16, revents: i16 }

#[rustfmt::skip]
extern "C" {
    fn kx_raw_open(out: *mut *mut Opaque, setup: *mut Setup, contexts: *const Context, count: usize,
        rules: *const u8, rules_len: usize, hosts: *const u8, hosts_len: usize) -> u32;
    fn kx_raw_free(host: *mut Opaque);
    fn kx_raw_line(host: *mut Opaque, line: *const u8, len: usize, out: *mut u8, cap: usize,
        wrote: *mut usize) -> u32;
    fn kx_raw_waits(host: *mut Opaque, fds: *mut PollFd, cap: usize, count: *mut usize) -> u32;
    fn poll(fds: *mut PollFd, count: u64, timeout: c_int) -> c_int;
}

/// A host. Its pointer is one that `kx_raw_open` gave, until it is dropped.
struct Host(*mut Opaque);

impl Host {
    fn open(rules: &str) -> Result<Host, u32> {
        let mut at = std::ptr::null_mut();
        let mut setup = Setup { keep_log: 0, anywhere: 0, most_asks: 0, bad_line: 0 };
        let (contexts, none) = ([Context { may: 1, write_limit: u64::MAX }], "");
        match unsafe {
            kx_raw_open(&mut at, &mut setup, contexts.as_ptr(), 1, rules.as_ptr(), rules.len(),
                none.as_ptr(), 0)
        } {
            0 => Ok(Host(at)),
            status => Err(status),
        }
    }

    /// Does a line, and waits until its reply isn't `pending`.
    fn line(&mut self, line: &str) -> String {
        let (mut out, mut wrote) = (vec![0u8; 200_000], 0);
        let status = unsafe {
            kx_raw_line(self.0, line.as_ptr(), line.len(), out.as_mut_ptr(), out.len(), &mut wrote)
        };
        if status != 0 {
            return format!("status {status}");
        }
        let reply = String::from_utf8_lossy(&out[..wrote]).trim_end().to_string();
        match reply.strip_prefix("pending ") {
            Some(call) => {
                self.wait();
                self.line(&format!("poll {call}"))
            }
            None => reply,
        }
    }

    fn wait(&mut self) {
        let (mut fds, mut count) = ([PollFd { fd: -1, events: 0, revents: 0 }; 16], 0);
        unsafe {
            kx_raw_waits(self.0, fds.as_mut_ptr(), fds.len(), &mut count);
            poll(fds.as_mut_ptr(), count.min(fds.len()) as u64, 1000);
        }
    }
}

impl Drop for Host {
    fn drop(&mut self) {
        unsafe { kx_raw_free(self.0) }
    }
}

fn main() {
    let port = std::env::args().nth(1).expect("a port");
    let rules = format!("allow tcp-bind any 0 0\nallow tcp-connect 4 127 0 0 1 32 {port} {port}\n");
    let mut host = Host::open(&rules).expect("a host");
    for line in [
        "0 network",
        "0 tcp-create 4",
        &format!("0 tcp-start-connect 2 1 4 127 0 0 1 {port}"),
        "0 subscribe 2",
        "0 block 3",
        "0 drop 3",
        "0 tcp-finish-connect 2",
        "0 blocking-write 5 474554202f20485454502f312e300d0a0d0a",
        "0 blocking-read 4 15",
    ] {
        println!("{line}\n    {}", host.line(line));
    }
}
