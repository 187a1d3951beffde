//! The worked example by the library's three calls: a store is set up, eleven lines are carried out, and all nodes are listed.
//!
//!     rustc --edition 2021 -L native=crates/exports/out -l static=exports examples/example.rs

// As include/patterns.h has them.
extern "C" {
    fn patterns_setup(store: *mut u8, store_len: usize, text: *const u8, text_len: usize, value: *mut u64) -> u32;
    #[rustfmt::skip]
    fn patterns_run(store: *mut u8, store_len: usize, line: *const u8, line_len: usize,
                    answer: *mut u8, answer_len: usize, value: *mut u64) -> u32;
    #[rustfmt::skip]
    fn patterns_listing(store: *const u8, store_len: usize, n: usize,
                        answer: *mut u8, answer_len: usize, value: *mut u64) -> u32;
}

const STORE: usize = 65536;
const ANSWER: usize = 4096;
const NO_VALUE: u64 = u64::MAX;
const DONE: u32 = 0;
const MISSING: u32 = 3;

const SETUP: &str = "p,1,1\np,2,2\nr,0,1\nl,1,0,oak\nl,2,1,elm\nend\n";

const LINES: [&str; 11] = [
    "1,login,0,oak",
    "1,mkdir,/u1/d,0700",
    "1,add,/u1/d,/rep/cut,1",
    "1,create,/u1/a,0600",
    "1,add,/u1/a,/rep/cut/a,1",
    "2,mv,/rep/cut/a,/u2/a",
    "2,login,1,elm",
    "2,co,/rep/cut,/u2/w",
    "2,write,/u2/w/a,51 32",
    "2,commit,/u2/w/a",
    "1,commit,/u1/a",
];

/// The answer's text: its first `length` bytes.
fn text(answer: &[u8], length: u64) -> String {
    String::from_utf8_lossy(&answer[..length as usize]).into_owned()
}

fn main() {
    // The caller keeps both buffers and lends them for each call. All pointers below go with their own buffer's length.
    let mut store = vec![0u8; STORE];
    let mut answer = vec![0u8; ANSWER];
    let mut value = 0;

    let number = unsafe { patterns_setup(store.as_mut_ptr(), STORE, SETUP.as_ptr(), SETUP.len(), &mut value) };
    assert_eq!(number, DONE, "setup line {value} is wrong");

    for line in LINES {
        let (to, from) = (answer.as_mut_ptr(), line.as_ptr());
        let number = unsafe { patterns_run(store.as_mut_ptr(), STORE, from, line.len(), to, ANSWER, &mut value) };
        match (number, value) {
            (DONE, NO_VALUE) => println!("ok"),
            (DONE, length) => println!("ok,{}", text(&answer, length)),
            (number, _) => println!("no,{number}"),
        }
    }

    // Line n of the listing, from 0, until there is none.
    for n in 0.. {
        let number = unsafe { patterns_listing(store.as_ptr(), STORE, n, answer.as_mut_ptr(), ANSWER, &mut value) };
        if number == MISSING {
            break;
        }
        assert_eq!(number, DONE, "the store is sound");
        println!("{}", text(&answer, value));
    }
}
