//! What the forms of rattle_std make the system do.
use rattle_std::fs::{self, File, FileExt, OpenOptions};
use rattle_std::io::ErrorKind;
use rattle_std::os::fd::AsRawFd;
use rattle_std::rt::{Clock, HostRuntime};
use std::time::{Duration, SystemTime, UNIX_EPOCH};

/// A path that no other test has.
fn path_of(name: &str) -> String {
    let path = std::env::temp_dir().join(format!("rattle_std.{}.{name}", std::process::id()));
    path.to_str().expect("a text").to_owned()
}

#[test]
fn a_file_is_written_and_read_at_offsets() {
    let (rt, path) = (HostRuntime, path_of("offsets"));
    let made = OpenOptions::new().read(true).write(true).create_new(true).open(&rt, &path).unwrap();
    let again = OpenOptions::new().read(true).write(true).create_new(true).open(&rt, &path);
    assert_eq!(again.unwrap_err().kind(), ErrorKind::AlreadyExists);
    made.set_len(10).unwrap();
    made.write_all_at(b"abc", 4).unwrap();
    made.write_all_at(b"xyz", 9).unwrap();
    made.sync_all().unwrap();
    assert_eq!(made.metadata().unwrap().len(), 12);
    let mut into = [0; 5];
    made.read_exact_at(&mut into, 3).unwrap();
    assert_eq!(&into, b"\0abc\0");
    assert_eq!(made.read_exact_at(&mut into, 8).unwrap_err().kind(), ErrorKind::UnexpectedEof);
    for at in [1 << 63, u64::MAX] {
        assert_eq!(made.read_exact_at(&mut into, at).unwrap_err().kind(), ErrorKind::InvalidInput);
        assert_eq!(made.write_all_at(b"a", at).unwrap_err().kind(), ErrorKind::InvalidInput);
    }
    assert_eq!(std::fs::read(&path).unwrap(), b"\0\0\0\0abc\0\0xyz");
    fs::remove_file(&rt, &path).unwrap();
}

#[test]
fn a_locked_file_is_not_locked_again() {
    let (rt, path) = (HostRuntime, path_of("locks"));
    fs::write(&rt, &path, b"").unwrap();
    let (one, other) = (File::open(&rt, &path).unwrap(), File::open(&rt, &path).unwrap());
    one.try_lock().unwrap();
    assert!(other.try_lock().is_err());
    assert!(one.try_clone().unwrap().as_raw_fd() > 2);
    drop(one);
    other.try_lock().unwrap();
    fs::remove_file(&rt, &path).unwrap();
}

#[test]
fn clocks_go_on() {
    let rt = HostRuntime;
    let begun = rt.monotonic().unwrap();
    std::thread::sleep(Duration::from_millis(20));
    let passed = rt.monotonic().unwrap() - begun;
    assert!((20..5_000).contains(&passed.as_millis()), "{passed:?}");
    let apart = SystemTime::now().duration_since(UNIX_EPOCH).unwrap().abs_diff(rt.since_1970().unwrap());
    assert!(apart < Duration::from_secs(5), "{apart:?}");
}
