//! Every function compares the version of the archive with the crate's before it calls anything.
//! `bindings/test` runs this a second time with an archive of another version, which it names by the
//! variable.

use std::env;
use std::panic::catch_unwind;

use oddrafisk_sys as sys;

const VARIABLE: &str = "ODDRAFISK_OTHER_VERSION";

/// Each of them, on as little as it takes.
const CALLS: [(&str, fn()); 8] = [
    ("check", || {
        sys::check(sys::KEYED, &[], &mut [0; sys::ENTRIES]);
    }),
    ("read", || {
        sys::read(sys::KEYED, &[], &mut [], &mut [], &mut [0; sys::ENTRIES]);
    }),
    ("measure", || {
        let batch = [0; sys::ENTRIES];
        sys::measure(sys::KEYED, &batch, 0, &[], &[], &[], &mut [0]);
    }),
    ("write", || {
        let batch = [0; sys::ENTRIES];
        sys::write(sys::KEYED, &batch, 0, &[], &[], &[], &mut [], &mut [0]);
    }),
    ("is_canonical", || {
        sys::is_canonical(sys::KEYED, &[]);
    }),
    ("convert", || {
        sys::convert(&[], &mut [], &mut [0; 2]);
    }),
    ("record_time", || {
        sys::record_time(0, 0, 0, 0, &mut [0]);
    }),
    ("crc32c", || {
        sys::crc32c(&[]);
    }),
];

#[test]
fn archive_of_another_version_is_found_by_every_function() {
    let other = env::var(VARIABLE).ok();
    let version = other
        .as_ref()
        .map_or(sys::VERSION, |version| version.parse().unwrap());
    assert_eq!(sys::version(), version);
    for (name, call) in CALLS {
        let said = catch_unwind(call).map_err(|said| *said.downcast::<String>().unwrap());
        match (&other, said) {
            (None, said) => assert_eq!(said, Ok(()), "{name}"),
            (Some(version), said) => {
                let expected = format!("liboddrafisk.a has the version {version}, and ");
                assert!(
                    said.is_err_and(|said| said.starts_with(&expected)),
                    "{name}"
                );
            }
        }
    }
}
