// compare/run: cases from a seed, asked of the Rust and of the library in this process, on as many threads as there are processors. Prints what was compared,
// and the first difference with the smallest input found; exit status 1 then.
use compare::cases::Cases;
use compare::check::check;
use compare::difference::Difference;
use compare::lender::Lender;
use compare::self_test::self_test;
use compare::shrink::shrink;
use compare::tally::Tally;
use std::process::ExitCode;
use std::sync::atomic::{AtomicU64, Ordering};
use std::thread;
use std::time::Instant;

/// The Rust reads a nested function by recursion.
const STACK_BYTES: usize = 256 << 20;
/// Cases that a thread takes at a time.
const BLOCK: u64 = 256;

/// Which case comes next, and the least one that differs so far.
struct Progress {
    next: AtomicU64,
    differs: AtomicU64,
}

fn main() -> ExitCode {
    let mut words = std::env::args().skip(1);
    let mut text = || std::fs::read_to_string(words.next().expect("a file")).expect("a file that can be read");
    let (compiled, requests) = (text(), text());
    let first = words.next().unwrap_or("1".to_string());
    // A panic of the Rust is told as a difference, once.
    std::panic::set_hook(Box::new(|_| {}));
    if first == "self-test" {
        return on_stack(move || test(&Cases::new(1, &compiled, &requests)));
    }
    let number = |word: String| word.parse().ok();
    let (Some(seed), Some(count)) = (number(first), number(words.next().unwrap_or("1000000".to_string()))) else {
        eprintln!("usage: compare/run [SEED] [COUNT] | self-test");
        return ExitCode::from(2);
    };
    on_stack(move || run(&Cases::new(seed, &compiled, &requests), seed, count))
}

fn on_stack(work: impl FnOnce() -> ExitCode + Send + 'static) -> ExitCode {
    thread::Builder::new().stack_size(STACK_BYTES).spawn(work).expect("a thread").join().unwrap_or(ExitCode::from(2))
}

fn run(cases: &Cases, seed: u64, count: u64) -> ExitCode {
    let start = Instant::now();
    let progress = Progress { next: AtomicU64::new(0), differs: AtomicU64::new(u64::MAX) };
    let threads = thread::available_parallelism().map_or(1, |threads| threads.get());
    let mut tally = Tally::default();
    let mut asked = 0;
    thread::scope(|scope| {
        let spawn = |_| {
            thread::Builder::new()
                .stack_size(STACK_BYTES)
                .spawn_scoped(scope, || take_cases(cases, count, &progress))
                .expect("a thread")
        };
        let workers: Vec<_> = (0..threads).map(spawn).collect();
        for worker in workers {
            let (counted, calls) = worker.join().expect("a worker reports");
            tally.add(&counted);
            asked += calls;
        }
    });
    println!("seed       {seed}");
    tally.print();
    println!("calls      {asked}");
    println!("time       {:.1} s on {threads} threads", start.elapsed().as_secs_f64());
    match progress.differs.into_inner() {
        u64::MAX => {
            println!("no difference");
            ExitCode::SUCCESS
        }
        index => {
            show_difference(cases, index);
            ExitCode::FAILURE
        }
    }
}

/// Cases below the least one that differs are all asked, so that the first difference is the same in every run.
fn take_cases(cases: &Cases, count: u64, progress: &Progress) -> (Tally, u64) {
    let (mut lender, mut tally) = (Lender::default(), Tally::default());
    loop {
        let from = progress.next.fetch_add(BLOCK, Ordering::Relaxed);
        if from >= count {
            return (tally, lender.asked);
        }
        for index in from..count.min(from + BLOCK) {
            if index > progress.differs.load(Ordering::Relaxed) {
                return (tally, lender.asked);
            }
            if compared(cases, index, &mut lender, &mut tally).is_err() {
                progress.differs.fetch_min(index, Ordering::Relaxed);
            }
        }
    }
}

fn compared(cases: &Cases, index: u64, lender: &mut Lender, tally: &mut Tally) -> Result<(), Difference> {
    check(&cases.case(index), lender, tally)
}

fn show_difference(cases: &Cases, index: u64) {
    let mut lender = Lender::default();
    let case = cases.case(index);
    println!("case {index} differs: {}", case.request());
    let Err(difference) = check(&case, &mut lender, &mut Tally::default()) else {
        println!("asked again, it does not differ");
        return;
    };
    let (least, difference) = shrink(&mut lender, case, difference);
    println!("least: {}\n  asked with {}\n{difference}", least.request(), least.ask);
}

fn test(cases: &Cases) -> ExitCode {
    let (tried, missed) = self_test(cases);
    println!("self-test  {tried} changes of an answer or of lent memory, {} not found", missed.len());
    for alteration in &missed {
        println!("not found: {alteration:?}");
    }
    if missed.is_empty() {
        ExitCode::SUCCESS
    } else {
        ExitCode::FAILURE
    }
}
