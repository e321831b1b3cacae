//! Runs the book in a file and prints its end and its lists, as the program does.
//!
//!     caller-rust FILE.book    exit status 2 for a wrong usage, or a file that cannot be read
use std::io::{self, Read, Write};
use std::{env, fs, path::PathBuf, process, thread};

const BUDGET: usize = 4000;
const MOST_BYTES: usize = 65536;
const STACK: usize = 8 << 20; // a call needs ZAMOLUVEL_STACK bytes; a thread has 2 MB unless it is given more

const FINISHED: u32 = 0;
const CLASH: u32 = 1;
const SPENT: u32 = 2;
const REFUSED: u32 = 100;
const EDGES: u32 = 0;
const PAIRS: u32 = 1;

extern "C" {
    fn zamoluvel_saturate(
        book: *const u8, book_len: usize, budget: u64, types: *mut u32, types_len: usize, edges: *mut u32,
        edges_len: usize, pairs: *mut u32, pairs_len: usize, t: *mut u32, e: *mut u32, p: *mut u32,
    ) -> u32;
    fn zamoluvel_named_part(end: u32, edge_count: u32, pair_count: u32, named: u32) -> usize;
}

/// A line for each row in a part of a list.
fn rows(letter: &str, part: &[u32], width: usize) -> String {
    let row = |row: &[u32]| letter.to_string() + &row.iter().map(|n| format!(" {n}")).collect::<String>() + "\n";
    part.chunks(width).map(row).collect()
}

/// What the program prints for a book.
fn printed(book: &[u8]) -> String {
    if book.len() > MOST_BYTES {
        return "long\n".to_string();
    }
    let (mut types, mut edges, mut pairs) = ([0; 2 * BUDGET], [0; 3 * BUDGET], [0; 4000]);
    let (mut t, mut e, mut p) = (0, 0, 0);
    // SAFETY: each pointer goes with the length of what it points to, and no two of these overlap
    let end = unsafe {
        zamoluvel_saturate(
            book.as_ptr(), book.len(), BUDGET as u64, types.as_mut_ptr(), types.len(), edges.as_mut_ptr(),
            edges.len(), pairs.as_mut_ptr(), pairs.len(), &mut t, &mut e, &mut p,
        )
    };
    // SAFETY: the function takes and answers numbers
    let part = |named| unsafe { zamoluvel_named_part(end, e, p, named) };
    match end {
        FINISHED => {
            let types = rows("t", &types[..2 * t as usize], 2);
            let edges = rows("e", &edges[..part(EDGES)], 3);
            let pairs = rows("s", &pairs[..part(PAIRS)], 2);
            format!("finished {t} {e} {p}\n{types}{edges}{pairs}")
        }
        CLASH => format!("clash {t} {e}\n"),
        SPENT => "spent\n".to_string(),
        _ => format!("refused {}\n", end - REFUSED),
    }
}

fn stop(status: i32, words: String) -> ! {
    eprintln!("{words}");
    process::exit(status)
}

fn main() {
    let paths: Vec<_> = env::args_os().skip(1).map(PathBuf::from).collect();
    let [path] = &paths[..] else { stop(2, "usage: caller-rust FILE.book".to_string()) };
    let mut book = Vec::new();
    let file = fs::File::open(path).map(|file| file.take(MOST_BYTES as u64 + 1));
    if let Err(error) = file.and_then(|mut file| file.read_to_end(&mut book)) {
        stop(2, format!("caller-rust: {}: {error}", path.display()))
    }
    let run = thread::Builder::new().stack_size(STACK).spawn(move || printed(&book));
    let text = run.expect("a thread").join().expect("a run");
    if let Err(error) = io::stdout().write_all(text.as_bytes()) {
        stop(1, format!("caller-rust: standard output: {error}"))
    }
}
