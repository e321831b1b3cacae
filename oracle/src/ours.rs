//! Our side: the static library, or a child process that answers in its place.

use crate::book::{Book, INDIVIDUALS};
use crate::words::hex;
use std::fmt;
use std::io::{Read, Write};
use std::process::{Child, ChildStdin, ChildStdout, Command, Stdio};

/// Entries enough for every pair of 512 individuals.
const PAIR_ROOM: usize = 512 * 511;

#[derive(Clone, PartialEq, Eq, Debug)]
pub enum End {
    Finished { types: Vec<[u32; 2]>, edges: Vec<[u32; 3]>, pairs: Vec<[u32; 2]> },
    Clash { types: u32, edges: u32 },
    Spent,
    Refused(u32),
}

/// Something that runs books as our engine does.
pub trait Side {
    /// The end of a run with the book's bound as its budget, and lists enough for it.
    fn run(&mut self, book: &Book) -> End;
}

/// The list's front as rows, which must ascend, with 0 behind them.
fn rows<const N: usize>(list: &[u32], count: usize) -> Vec<[u32; N]> {
    let (front, rest) = list.split_at(N * count);
    let rows: Vec<[u32; N]> = front.chunks_exact(N).map(|row| row.try_into().expect("N entries")).collect();
    assert!(rows.windows(2).all(|two| two[0] < two[1]), "a list does not ascend");
    assert!(rest.iter().all(|&entry| entry == 0), "a list is not 0 behind its rows");
    rows
}

fn end(code: u32, counts: [u32; 3], types: &[u32], edges: &[u32], pairs: &[u32]) -> End {
    match code {
        0 => End::Finished {
            types: rows(types, counts[0] as usize),
            edges: rows(edges, counts[1] as usize),
            pairs: rows(pairs, counts[2] as usize),
        },
        1 => End::Clash { types: counts[0], edges: counts[1] },
        2 => End::Spent,
        n => End::Refused(n - 100),
    }
}

/// The function of include/saturation.h that runs a book; no other file knows the library.
#[cfg(library)]
mod library {
    extern "C" {
        pub fn zamoluvel_saturate(
            book: *const u8,
            book_len: usize,
            budget: u64,
            types: *mut u32,
            types_len: usize,
            edges: *mut u32,
            edges_len: usize,
            pairs: *mut u32,
            pairs_len: usize,
            type_count: *mut u32,
            edge_count: *mut u32,
            pair_count: *mut u32,
        ) -> u32;
    }
}

/// The linked library with lists that are lent to each run.
pub struct Library {
    types: Vec<u32>,
    edges: Vec<u32>,
    pairs: Vec<u32>,
    pub counts: [u32; 3],
}

impl Library {
    /// None where the program was built without the library.
    pub fn new() -> Option<Self> {
        cfg!(library).then(|| Self { types: vec![], edges: vec![], pairs: vec![0; PAIR_ROOM], counts: [0; 3] })
    }

    /// Runs the book and returns the code of its end; lists have the budget's size, and the pair list room for every
    /// pair of that many individuals.
    pub fn call(&mut self, book: &[u8], budget: usize, individuals: usize) -> u32 {
        if self.edges.len() < 3 * budget {
            self.types.resize(2 * budget, 0);
            self.edges.resize(3 * budget, 0);
        }
        self.counts = [0; 3];
        let [type_count, edge_count, pair_count] = &mut self.counts;
        let (types, edges) = (&mut self.types[..2 * budget], &mut self.edges[..3 * budget]);
        let pairs = &mut self.pairs[..individuals * individuals.saturating_sub(1)];
        #[cfg(library)]
        // Each list is live and of the length beside it, and no two overlap, the counts included.
        unsafe {
            library::zamoluvel_saturate(
                book.as_ptr(),
                book.len(),
                budget as u64,
                types.as_mut_ptr(),
                types.len(),
                edges.as_mut_ptr(),
                edges.len(),
                pairs.as_mut_ptr(),
                pairs.len(),
                type_count,
                edge_count,
                pair_count,
            )
        }
        #[cfg(not(library))]
        {
            let _ = (book, types, edges, pairs, type_count, edge_count, pair_count);
            unreachable!("there is no Library without the library")
        }
    }
}

impl Side for Library {
    fn run(&mut self, book: &Book) -> End {
        let (budget, individuals) = (book.bound(), book.counts[INDIVIDUALS]);
        let code = self.call(&book.bytes(), budget, individuals);
        let pairs = &self.pairs[..individuals * individuals.saturating_sub(1)];
        end(code, self.counts, &self.types[..2 * budget], &self.edges[..3 * budget], pairs)
    }
}

/// A child process that reads books and writes ends. All numbers are four bytes, little-endian. A request is the
/// book's length, the budget and the book; an answer is the code of the end (0 finished, 1 clash, 2 spent, 100 + n
/// refused by n), three counts and, after finished, the entries of the three lists.
pub struct Server {
    child: Child,
    requests: ChildStdin,
    answers: ChildStdout,
}

impl Server {
    pub fn start(command: &[String]) -> std::io::Result<Self> {
        let mut child =
            Command::new(&command[0]).args(&command[1..]).stdin(Stdio::piped()).stdout(Stdio::piped()).spawn()?;
        let requests = child.stdin.take().expect("piped");
        let answers = child.stdout.take().expect("piped");
        Ok(Self { child, requests, answers })
    }

    fn numbers(&mut self, n: usize) -> std::io::Result<Vec<u32>> {
        let mut bytes = vec![0; 4 * n];
        self.answers.read_exact(&mut bytes)?;
        Ok(bytes.chunks_exact(4).map(|four| u32::from_le_bytes(four.try_into().expect("four bytes"))).collect())
    }

    fn ask(&mut self, book: &[u8], budget: usize) -> std::io::Result<End> {
        let head = [book.len() as u32, budget as u32].map(u32::to_le_bytes).concat();
        self.requests.write_all(&[&head, book].concat())?;
        self.requests.flush()?;
        let head = self.numbers(4)?;
        let counts = [head[1], head[2], head[3]];
        let listed = if head[0] == 0 { counts.map(|n| n as usize) } else { [0; 3] };
        let (types, edges, pairs) =
            (self.numbers(2 * listed[0])?, self.numbers(3 * listed[1])?, self.numbers(2 * listed[2])?);
        Ok(end(head[0], counts, &types, &edges, &pairs))
    }
}

impl Side for Server {
    fn run(&mut self, book: &Book) -> End {
        let bytes = book.bytes();
        self.ask(&bytes, book.bound()).unwrap_or_else(|error| panic!("no answer on {}: {error}", hex(&bytes)))
    }
}

impl Drop for Server {
    fn drop(&mut self) {
        let _ = self.child.kill();
        let _ = self.child.wait();
    }
}

/// As the program prints an end.
impl fmt::Display for End {
    fn fmt(&self, f: &mut fmt::Formatter) -> fmt::Result {
        match self {
            Self::Clash { types, edges } => write!(f, "clash {types} {edges}"),
            Self::Spent => write!(f, "spent"),
            Self::Refused(n) => write!(f, "refused {n}"),
            Self::Finished { types, edges, pairs } => {
                write!(f, "finished {} {} {}", types.len(), edges.len(), pairs.len())?;
                types.iter().try_for_each(|[i, c]| write!(f, "\nt {i} {c}"))?;
                edges.iter().try_for_each(|[r, a, b]| write!(f, "\ne {r} {a} {b}"))?;
                pairs.iter().try_for_each(|[a, b]| write!(f, "\ns {a} {b}"))
            }
        }
    }
}
