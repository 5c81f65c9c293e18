//! The declarations of watchtree.h and watchtree_threads.h.
use std::os::raw::{c_char, c_int, c_void};

#[repr(C)]
#[derive(Debug)]
pub struct RawTree {
    pub at: *mut c_void,
    pub ready: bool,
}

#[repr(C)]
#[derive(Debug)]
pub struct RawShared {
    _opaque: [u8; 0],
}

#[repr(C)]
#[derive(Clone, Copy, Debug, Default)]
pub struct RawStat {
    pub links: u64,
    pub size: u64,
    pub number: u32,
    pub mode: u32,
    pub is_directory: u32,
}

/// Declares the calls of a tree: each without a lock, of a `RawTree`, and with it, of a `RawShared`.
macro_rules! calls_of_trees {
    ($($plain:ident $shared:ident($($name:ident: $kind:ty),*);)*) => {
        extern "C" {
            $(
                pub fn $plain(tree: *mut RawTree $(, $name: $kind)*) -> i64;
                pub fn $shared(tree: *mut RawShared $(, $name: $kind)*) -> i64;
            )*
        }
    };
}

calls_of_trees! {
    wt_cut wtt_cut();
    wt_mkdir wtt_mkdir(path: *const c_char, path_len: usize, mode: u32);
    wt_create wtt_create(path: *const c_char, path_len: usize, mode: u32);
    wt_write wtt_write(path: *const c_char, path_len: usize, offset: u64, bytes: *const c_void, bytes_len: usize);
    wt_pread wtt_pread(path: *const c_char, path_len: usize, offset: u64, out: *mut c_void, out_len: usize);
    wt_truncate wtt_truncate(path: *const c_char, path_len: usize, len: u64);
    wt_chmod wtt_chmod(path: *const c_char, path_len: usize, mode: u32);
    wt_link wtt_link(old: *const c_char, old_len: usize, to: *const c_char, to_len: usize);
    wt_unlink wtt_unlink(path: *const c_char, path_len: usize);
    wt_rmdir wtt_rmdir(path: *const c_char, path_len: usize);
    wt_rename wtt_rename(old: *const c_char, old_len: usize, to: *const c_char, to_len: usize);
    wt_rename2 wtt_rename2(old: *const c_char, old_len: usize, to: *const c_char, to_len: usize, flags: u32);
    wt_stat wtt_stat(path: *const c_char, path_len: usize, out: *mut RawStat);
    wt_list wtt_list(path: *const c_char, path_len: usize, out: *mut c_void, out_len: usize);
    wt_inotify_init wtt_inotify_init(limit: u32);
    wt_inotify_add_watch wtt_inotify_add_watch(instance: u32, path: *const c_char, path_len: usize, mask: u32);
    wt_inotify_rm_watch wtt_inotify_rm_watch(instance: u32, wd: i32);
    wt_waiting wtt_waiting(instance: u32);
    wt_inotify_close wtt_inotify_close(instance: u32);
    wt_bytes_waiting wtt_bytes_waiting(instance: u32);
    wt_ready wtt_ready(out: *mut u32, out_len: usize);
    wt_peek_stat wtt_peek_stat(path: *const c_char, path_len: usize, out: *mut RawStat);
    wt_peek_list wtt_peek_list(path: *const c_char, path_len: usize, out: *mut c_void, out_len: usize);
    wt_peek_pread wtt_peek_pread(path: *const c_char, path_len: usize, offset: u64, out: *mut c_void, out_len: usize);
    wt_path_of wtt_path_of(number: u64, out: *mut c_void, out_len: usize);
    wt_first_place wtt_first_place();
    wt_last_place wtt_last_place();
    wt_entry wtt_entry(place: u64, out: *mut c_void, out_len: usize);
    wt_line wtt_line(queue: u32, line: *const c_char, line_len: usize, out: *mut c_void, out_len: usize);
    wt_text wtt_text(out: *mut c_void, out_len: usize);
}

extern "C" {
    pub fn wt_open(tree: *mut RawTree) -> i64;
    pub fn wt_fork(tree: *mut RawTree, fork: *mut RawTree) -> i64;
    pub fn wt_close(tree: *mut RawTree);
    pub fn wt_read(tree: *mut RawTree, instance: u32, out: *mut c_void, out_len: usize) -> i64;
    pub fn wt_version(out: *mut c_void, out_len: usize) -> i64;
    pub fn wt_error_text(number: i64, out: *mut c_void, out_len: usize) -> i64;
    pub fn wtt_open(tree: *mut *mut RawShared) -> i64;
    pub fn wtt_fork(tree: *mut RawShared, fork: *mut *mut RawShared) -> i64;
    pub fn wtt_close(tree: *mut RawShared);
    pub fn wtt_shutdown(tree: *mut RawShared);
    pub fn wtt_read(tree: *mut RawShared, instance: u32, out: *mut c_void, out_len: usize, milliseconds: c_int) -> i64;
    pub fn wtt_fd(tree: *mut RawShared, instance: u32) -> i64;
}
